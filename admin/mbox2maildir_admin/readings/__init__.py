"""How a text is read: the diagnosis, what is quoted, the copies that are made, and which text stands for a mailbox."""
