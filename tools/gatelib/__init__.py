"""What `./test` and `./prove` are made of."""
