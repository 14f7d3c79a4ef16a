"""The folder .kati: what a build depends on, and when the makefile is read again."""
