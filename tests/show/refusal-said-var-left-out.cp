type box = monitor;
  x: integer;
begin x := 0 end;
begin end.
