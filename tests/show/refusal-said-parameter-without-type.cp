type clock = monitor;
procedure entry sleep(n);
begin display(n) end;
begin end;
begin end.
