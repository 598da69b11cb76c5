type w = process
begin display(1) end;
m = monitor
var a: w;
begin init a end;
var b: m;
begin init b end.
