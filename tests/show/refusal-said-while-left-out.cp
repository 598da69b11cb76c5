var x: integer;
begin
  x < 3 do x := x + 1
end.
