"""What a command does with the mailboxes of many users: for each of them, with only this user's rights."""
