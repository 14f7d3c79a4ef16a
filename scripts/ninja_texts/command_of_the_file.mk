a: ; x
