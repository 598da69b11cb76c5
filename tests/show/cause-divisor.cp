var a: integer;
begin
  if 7 div a > 1 then display(1)
end.
