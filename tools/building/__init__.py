"""What `./build` does: the proofs that the program needs, by the gate's command, and how far they are."""
