"""The modules of the companion, each by itself."""
