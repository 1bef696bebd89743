"""What `tools/explain` says beside the program `rtic`: outside of what is proved, and told in docs/TOOLS.md."""
