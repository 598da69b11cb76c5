var x, y;
begin
  x := 1
end.
