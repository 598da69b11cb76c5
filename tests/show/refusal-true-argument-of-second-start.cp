type m = monitor; begin end; w = process(x: m; n: integer); begin end; var b: m; p: w;
begin init b, p(3, b) end.
