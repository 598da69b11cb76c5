var x, y: integer; begin y := 0; x := 1 div y end.
