var a, b: integer;
begin
  a := 32000;
  b := -800;
  a := a - b
end.
