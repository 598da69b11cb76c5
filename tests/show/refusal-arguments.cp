procedure f(a, b: integer; var c: char); begin end; begin f(1, (2)) end.
