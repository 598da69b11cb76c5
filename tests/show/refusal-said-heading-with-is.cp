type m = monitor
var n: integer;
procedure entry inc is
begin n := n + 1 end;
begin n := 0 end;
var a: m;
begin init a; a.inc end.
