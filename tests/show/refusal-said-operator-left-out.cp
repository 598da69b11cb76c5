var x: integer;
begin
  x := 2;
  display(10 x)
end.
