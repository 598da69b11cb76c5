type p = process
begin for i := 1 to 3 do display(i) end;
var i: integer; a: p;
begin init a; i := 1 end.
