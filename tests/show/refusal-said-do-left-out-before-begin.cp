var x: integer;
begin
  x := 3;
  while x > 0
  begin
    x := x - 1
  end
end.
