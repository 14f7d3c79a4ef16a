"""Programs, files, words and locks: what every tool stands on."""
