o: ; x
