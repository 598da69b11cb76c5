var x: integer; begin if x = 1 and x = 2 then x := 1; end.
