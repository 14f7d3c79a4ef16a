SHELL = cat a
o: a ; x
