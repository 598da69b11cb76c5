var a: integer;
begin
  a := 1;
  if a = 1 thne a := 2
end.
