type counter = monitor(k: integer);
var n: integer;
procedure entry inc; begin n := n + 1 end;
begin n := k end;
var c: counter;
begin c := new(counter); c.inc end.
