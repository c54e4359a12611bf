"""Mistakes that are made in the companion, to see whether its tests notice."""
