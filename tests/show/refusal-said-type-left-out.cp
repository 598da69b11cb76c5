const n = 3;
buffer = monitor(k: integer);
var x: integer;
begin x := k end;
var a: buffer;
begin init a(n) end.
