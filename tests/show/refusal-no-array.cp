type r = record a: integer end; var x: integer; v: r; a: array [1..3] of char; begin x[1] := 2; end.
