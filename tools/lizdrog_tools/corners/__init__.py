"""One design at several corners: one run of the program for each, launched side by side, and their answers merged."""
