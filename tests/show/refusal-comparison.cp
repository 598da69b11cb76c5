type color = (red, green); r = record a: integer end; var x: integer; c: color; v: r; a: array [1..3] of char; begin if c = x then x := 1 end.
