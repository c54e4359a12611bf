"""What the companion is given, and what it prints of it and makes of it: rows of tables."""
