"""Whole gases: snapshot files, sets of cells, and walls and ports from a journal."""
