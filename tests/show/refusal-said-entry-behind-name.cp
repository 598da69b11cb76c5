type door = monitor;
procedure visit entry(n: integer);
begin display(n) end;
begin end;
begin end.
