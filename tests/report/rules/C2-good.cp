var a, b: integer; begin end.
