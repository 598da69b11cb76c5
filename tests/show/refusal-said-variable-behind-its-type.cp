var integer x;
begin
  x := 1
end.
