var a: integer;
begin
  a := 200;
  a := a * a
end.
