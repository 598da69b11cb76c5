var x: integer; b: boolean; begin x := x + b * 2 end.
