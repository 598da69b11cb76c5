type m = monitor;
  procedure p(x: integer) entry;
  begin end;
begin end;
begin end.
