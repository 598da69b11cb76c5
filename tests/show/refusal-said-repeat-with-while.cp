var i: integer;
begin
  i := 0;
  repeat i := i + 1 while i < 3
end.
