var x: integer; begin x := 3 - +2 end.
