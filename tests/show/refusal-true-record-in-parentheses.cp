type r = record f: integer end; var x: r; i: integer; begin i := (x) * 2 end.
