var n: integer;
begin
  n := 3;
  while n > 0 do
  begin
    if n = 2 then
    begin
      display(n);
    n := n - 1
  end
end.
