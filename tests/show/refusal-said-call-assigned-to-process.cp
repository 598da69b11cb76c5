type p = process(n: integer);
begin display(n) end;
var a: p;
begin
  a := p(3)
end.
