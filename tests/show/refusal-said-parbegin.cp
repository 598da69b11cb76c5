type p = process(n: integer);
begin display(n) end;
var a, b: p;
begin
  parbegin
    init a(1);
    init b(2)
  parend
end.
