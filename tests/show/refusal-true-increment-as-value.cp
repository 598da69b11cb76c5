var x: integer; begin x := x++ end.
