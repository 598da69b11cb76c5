var x: integer;
begin
  while x < 3 then x := x + 1
end.
