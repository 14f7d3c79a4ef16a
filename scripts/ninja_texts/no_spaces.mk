.PHONY: t
t: a | c ; x
