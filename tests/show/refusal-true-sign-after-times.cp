var x: integer; begin x := 2 * -1 end.
