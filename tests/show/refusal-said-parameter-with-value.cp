procedure p(a: integer := 5);
begin display(a) end;
begin p(1) end.
