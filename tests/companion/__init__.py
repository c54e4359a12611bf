"""mbox2maildir-admin, run as a command."""
