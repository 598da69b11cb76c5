procedure p n: integer;
begin display(n) end;
begin p(1) end.
