var x: integer; begin x := 1 + -2 end.
