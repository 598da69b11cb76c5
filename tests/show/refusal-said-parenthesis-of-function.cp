function twice(n: integer: integer;
begin twice := 2 * n end;
begin display(twice(2)) end.
