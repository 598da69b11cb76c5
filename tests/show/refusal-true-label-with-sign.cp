begin case 1 of -1: ; -1: end end.
