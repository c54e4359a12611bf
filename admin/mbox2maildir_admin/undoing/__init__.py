"""Removes what a migration placed: which messages of a mailbox, which of them other mailboxes have too, and their
files."""
