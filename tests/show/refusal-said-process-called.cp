type p = process(n: integer);
begin display(n) end;
var a: p;
begin
  a(3)
end.
