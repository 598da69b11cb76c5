type r = record f: integer end; var x: r; b: boolean; begin if 1 - x <= b then end.
