function f(n: integer) 1 integer;
begin
  f := n
end;
begin
  display(f(4))
end.
