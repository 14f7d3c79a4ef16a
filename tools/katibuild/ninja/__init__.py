"""Ninja: its text, its log and its program."""
