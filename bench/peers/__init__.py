"""Measures other converters on one mailbox beside this project's: docs/COMPARISON.md is what it prints."""
