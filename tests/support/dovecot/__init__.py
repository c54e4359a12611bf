"""A Dovecot of its own for a test, what its users have in it, and clients of POP3 and IMAP."""
