a.o: a.c
	cc -c a.c -o a.o
