"""A Takeout of Gmail by its labels: its way into folders, and its undo."""
