var x, y: integer;
begin
  if x = 1 then y := 2;
  x := 3;
  else y := 4
end.
