"""Models: their source, its tree, their variables, and changed values."""
