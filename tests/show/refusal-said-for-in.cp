var i: integer;
begin
  for i in range(5) do display(i)
end.
