var n: 1..9; last: integer;
begin
  for n := 2 downto last do display(n)
end.
