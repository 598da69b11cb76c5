var i: integer;
begin
  for i < 3 do display(i)
end.
