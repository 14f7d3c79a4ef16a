"""What kati-build, kati-port and kati-compare share.

The three commands are short scripts. In a checkout they stand in tools/, installed in PREFIX/bin/; from both
places the folder ../share/kati/ holds this package and the makefiles of built-in macros and rules, so one layout
serves both."""
