function fac(n: integer): integer;
begin if n = 0 then fac := 1 else fac := n * fac(n - 1) end;
begin display(fac(5)) end.
