var n: integer;
begin
  n := 2;
  if n = 1 then display(1)
  elif n = 2 then display(2)
end.
