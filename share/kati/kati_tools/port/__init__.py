"""Makefiles rewritten until kati takes them; the command kati-build, which leans on that."""
