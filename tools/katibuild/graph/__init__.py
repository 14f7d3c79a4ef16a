"""The explicit makefile: make's answer as a graph of statements, written in kati's language."""
