"""Makes the program for other systems, from the module that the proved build was compiled from."""
