var x: integer; s: set of char; begin x := 1; if 'a' in x then x := 1 end.
