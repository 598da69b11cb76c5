var n: integer;
begin
  for var i := 1 to 3 do n := n + i
end.
