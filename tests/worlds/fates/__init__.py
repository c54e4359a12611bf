"""Random trees, spools and homes, each with what must become of its names, and runs that are compared with that."""
