process worker(n: integer);
begin display(n) end;
var a: worker;
begin init a(1) end.
