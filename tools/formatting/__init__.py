"""What `tools/fmt` is made of: the program writes an application's canonical text, and the comments are put into it."""
