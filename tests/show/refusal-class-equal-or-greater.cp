var n: integer;
begin if n => 1 then display(n) end.
