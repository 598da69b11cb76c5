var x: integer;
begin
  if x <> = 3 then display(x)
end.
