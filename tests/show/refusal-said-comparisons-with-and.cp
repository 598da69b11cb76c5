var x: integer;
begin
  x := 2;
  while (x > 0) and x < 5 do x := x - 1
end.
