"""Compares the documents with the tree, and the commands that they show with the program: CONTRIBUTING.md."""
