const n: integer = 3;
begin display(n) end.
