type p = process
var s: integer;
begin wait(s) end;
var a: p;
begin init a end.
