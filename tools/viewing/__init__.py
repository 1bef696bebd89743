"""What `tools/view` is made of: outputs of `rtic` are read, followed item by item, and shown."""
