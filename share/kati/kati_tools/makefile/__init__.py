"""The text of makefiles: lines, references, includes, and the files that makefiles name."""
