var x: integer; b: boolean; begin if x then b := true end.
