type m = monitor
var q: queue; n: integer;
procedure entry p;
begin if q <> empty then continue(q) end;
begin n := 0 end;
var a: m;
begin init a end.
