var x: integer; begin repeat x := x + 1 until x; x := not x end.
