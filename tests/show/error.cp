"A process that divides by zero."
type
p = process(n: integer);
begin
  display(n);
  display(1 div n)
end;
var a: p;
begin
  init
    a(0);
  display(9)
end.
