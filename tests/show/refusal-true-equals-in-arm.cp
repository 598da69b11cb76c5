var x: integer; begin case 1 of 1: x = 2 end end.
