var x: integer;
begin
  while x < 3;
  display(x)
end.
