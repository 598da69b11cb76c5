var n: 0..2; last: integer;
begin
  last := 4;
  for n := 1 to last do display(n)
end.
