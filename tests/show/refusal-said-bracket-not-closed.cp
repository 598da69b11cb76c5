var x: array [1..2] of integer;
begin
  x[1 := 2
end.
