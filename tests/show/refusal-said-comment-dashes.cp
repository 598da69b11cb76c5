var x: integer;
begin
  x := 1; -- the first
  display(x)
end.
