"""Reads the sources: what each file declares, what it takes from others, and which names stand in each declaration."""
