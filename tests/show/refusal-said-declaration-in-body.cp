var x: integer;
begin
  x := 1;
  y: integer;
  y := 2
end.
