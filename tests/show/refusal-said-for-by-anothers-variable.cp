type m = monitor
var x: integer;
procedure entry p;
var i: integer;
begin for i := 1 to 3 do x := x + i end;
procedure entry q;
begin for i := 1 to 3 do x := x + i end;
begin x := 0 end;
var a: m;
begin init a end.
