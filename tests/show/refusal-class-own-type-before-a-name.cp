type counter = monitor;
  var n: integer;
  procedure entry add; begin counter.n := 1 end;
begin n := 0 end;
begin end.
