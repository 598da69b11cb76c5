var x: integer;
begin
  repeat
    x := x + 1;
  while x < 3;
  display(x)
end.
