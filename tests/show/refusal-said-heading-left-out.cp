type m = monitor
var n: integer;
procedure entry p;
begin n := 1 end;
begin n := 0 end;
begin display(1) end;
var a: m;
begin init a end.
