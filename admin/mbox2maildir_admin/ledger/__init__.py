"""What is remembered of messages and mailboxes, and how that is matched with a folder."""
