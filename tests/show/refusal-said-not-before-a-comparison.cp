var i: integer;
begin
  i := 3;
  if not i = 3 then display(i)
end.
