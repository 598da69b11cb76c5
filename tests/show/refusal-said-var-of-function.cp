function twice(var n: integer): integer;
begin twice := 2 * n end;
begin display(1) end.
