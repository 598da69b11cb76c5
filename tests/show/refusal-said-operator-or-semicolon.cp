var x, y: integer;
begin
  x := 2 y := 3
end.
