var x: integer;
begin
  x := 1;
  else x := 2
end.
