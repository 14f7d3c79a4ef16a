SHELL = a 
.SHELLFLAGS = b
b: ; p
