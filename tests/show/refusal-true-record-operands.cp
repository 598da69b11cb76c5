type r = record f: integer end; var x: r; b: boolean; begin b := x - x = 1 end.
