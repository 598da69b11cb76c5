type m = monitor; function entry f: integer; begin f := 1 end; begin end; var y: m; i: integer;
begin init y; i := y.f.x end.
