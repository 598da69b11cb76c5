"Two processes display a hundred and ten numbers each, and end."
type p = process;
var i: integer;
begin for i := 1 to 110 do display(0) end;
var a, b: p;
begin init a, b end.
