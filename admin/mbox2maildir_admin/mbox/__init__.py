"""Mailboxes: their files, parts, messages and headers."""
