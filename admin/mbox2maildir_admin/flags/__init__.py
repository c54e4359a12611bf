"""Flags of messages: what mail programs keep of them in headers, and how files get them."""
