var i: integer;
begin
  i := 3;
  if i in (1, 2, 3) then display(i)
end.
