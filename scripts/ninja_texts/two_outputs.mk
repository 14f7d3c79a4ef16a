# goals: a b
SHELL = sh
.SHELLFLAGS = a b
a b &: c ; x
