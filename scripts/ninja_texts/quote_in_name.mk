a: it's ; it's
