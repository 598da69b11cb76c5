var x: integer; begin x += 2 end.
