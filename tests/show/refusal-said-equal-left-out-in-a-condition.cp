var x: integer;
begin
  if x 0 then display(x)
end.
