function twice(n: integer);
begin twice := 2 * n end;
begin display(twice(4)) end.
