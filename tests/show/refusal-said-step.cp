var i: integer;
begin
  for i := 1 to 9 step 2 do display(i)
end.
