var a, b: integer;
begin
  a := 32000;
  b := 800;
  display(1);
  a := (a + b) * 2
end.
