var x: integer;
begin
  x := (x 2)
end.
