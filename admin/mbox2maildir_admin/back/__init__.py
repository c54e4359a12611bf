"""The way back: which mail of a Maildir did not come from the old mailboxes, and how it goes into them."""
