CC = cc
CFLAGS = -O1 -Wall
