var x: integer;
begin
  if x = 1 then x := 2 else x := 3 else x := 4
end.
