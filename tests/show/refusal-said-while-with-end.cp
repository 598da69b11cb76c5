var x: integer;
begin
  while x < 3 do x := x + 1 end;
  display(2)
end.
