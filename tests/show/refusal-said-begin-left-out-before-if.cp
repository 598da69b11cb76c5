procedure p(n: integer);
  if n > 0 then display(n)
end;
begin p(1) end.
