"""What pages say of each other and of the sources, and how sources are laid out: none runs the program."""
