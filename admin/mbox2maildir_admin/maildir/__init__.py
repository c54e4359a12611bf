"""Maildirs: their files, what of a text is there, dates, and room."""
