var x: integer;
begin
  x := 3;
  while x > 0
    x := x - 1
end.
