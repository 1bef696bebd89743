"""What `tools/test` does: it runs the tests of the tools side by side, and counts them."""
