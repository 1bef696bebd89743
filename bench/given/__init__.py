"""What `bench/inputs` is made of; it needs the package `rticref` of the reference on the path."""
