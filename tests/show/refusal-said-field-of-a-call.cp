function f(n: integer): integer;
begin f := n end;
begin
  display(f(1).n)
end.
