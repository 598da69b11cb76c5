var a, b, c: integer;
begin if a + 1 < b <= c * 2 then display(1) end.
