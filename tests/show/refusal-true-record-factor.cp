type r = record f: integer end; var x: r; i: integer; begin i := i * x = i end.
