type p = process(number: integer);
begin display(number) end;
var a, b: p;
begin init a(1), b(2); display(0) end.
