type m = monitor; var q: queue;
  procedure entry wake; begin if not empty q then continue(q) end;
begin end;
begin end.
