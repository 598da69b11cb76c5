type r = record f: integer end; var x: r; i: integer; begin i := 1 + x end.
