var c: integer; begin c := 2 end.
