var x: integer;
begin
  if x in 1..3 then display(x)
end.
