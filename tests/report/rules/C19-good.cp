begin case 1 of 1: ; 2: end end.
