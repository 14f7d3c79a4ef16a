# goals: a b
SHELL = a b
.SHELLFLAGS = c+1 '$$d'
a b &: c+1 $$d | f ; x
