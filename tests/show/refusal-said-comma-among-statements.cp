var x: integer;
begin
  x := 1, display(x)
end.
