"""make, asked in such a way that it runs no recipe: its commands, their environment and values."""
