var x: integer;
begin
  if x < 3;
  display(x)
end.
