var n: integer;
begin
  n := 1;
  repeat
  begin
    n := n + 1
  until n = 3
end.
