type p = process(n, m: integer) begin end;
var a: p;
begin init a((1, 2) end.
