"""Plain, slow models of what the program does, written from the rules. The commands of tests/ compare the program with them."""
