begin var x: integer; x := 1 end.
