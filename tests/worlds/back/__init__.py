"""The way back from a Maildir into mailboxes, by a model that shares no code with the companion."""
