var x: integer;
begin
  x := 2 * (3 + (4 - 1);
  display(x)
end.
