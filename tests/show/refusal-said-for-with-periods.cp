var i: integer;
begin
  for i := 1..3 do display(i)
end.
