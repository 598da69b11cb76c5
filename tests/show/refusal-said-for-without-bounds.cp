var i: integer;
begin
  for i do display(i)
end.
