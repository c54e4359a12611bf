"""The companion of mbox2maildir: it looks at mailboxes before a conversion, and at the Maildir afterwards.

Names and mail are bytes here, and come from others, so none of them reaches a terminal or a shell as it stands. A text
is read in blocks: of a mailbox of any size, only one header and what is known of each message are in memory.
"""
PROGRAM = "mbox2maildir"
ADMIN = "mbox2maildir-admin"
# the name of the Maildir in a home, unless another one is named
MAILDIR = "Maildir"
