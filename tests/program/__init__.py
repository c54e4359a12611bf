"""The program by itself: its words, its calls of the system, what it leaves on a disk."""
