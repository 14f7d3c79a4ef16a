"""GNU make: reads the graph and the recipes of a makefile from make itself."""
