var n: integer;
begin
  n : 1;
  display(n)
end.
