"""What `tools/replay` and `tools/soak` are made of: scripts of generated runs, what runs show, campaigns in parts."""
