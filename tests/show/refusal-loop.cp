var x: integer; c: char; s: set of char; begin for c := 1 to 2 do x := 1 end.
