var x: integer;
begin
  x := 1;
  if x > 0 display(x)
end.
