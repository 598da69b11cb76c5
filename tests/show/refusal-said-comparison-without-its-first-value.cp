var x: integer;
begin
  if x > 0 and < 10 then display(x)
end.
