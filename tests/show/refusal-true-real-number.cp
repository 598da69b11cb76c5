var x: integer; begin x := 1.5 end.
