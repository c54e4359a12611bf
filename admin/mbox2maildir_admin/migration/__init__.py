"""Migrations of mailboxes into the folders of a Maildir."""
