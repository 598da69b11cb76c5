var x: integer;
begin
  do
    x := x + 1
  while x < 3;
  display(x)
end.
