const one = 1; begin case 1 of 1: ; one: end end.
