type counter = monitor
var n: integer;
procedure inc; begin n := n + 1 end;
procedure entry p; begin self.inc end;
begin n := 0 end;
var c: counter;
begin init c; c.p end.
