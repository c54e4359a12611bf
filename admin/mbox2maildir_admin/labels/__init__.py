"""Gmail's labels in the mailbox of a Takeout: which folders each message goes into."""
