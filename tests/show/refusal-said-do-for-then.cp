var x: integer;
begin
  if x < 3 do x := x + 1
end.
