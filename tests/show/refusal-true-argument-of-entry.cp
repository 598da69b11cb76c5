type m = monitor; procedure entry put(n: integer; b: boolean); begin end; begin end; var y: m;
begin init y; y.put(1, 2) end.
