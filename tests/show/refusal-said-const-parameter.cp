type m = monitor
var n: integer;
procedure entry p(const x: integer);
begin n := x end;
begin n := 0 end;
var a: m;
begin init a end.
