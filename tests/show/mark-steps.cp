var n: integer; begin n := 0; cycle n := 0 end end.
