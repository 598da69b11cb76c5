var a: integer;
begin
  a := 4;
  a := a > 3 ? a : 3
end.
