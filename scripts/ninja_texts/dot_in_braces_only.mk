SHELL = 1.b
.SHELLFLAGS = 2
o: ; x
