type counter = monitor
var n: integer;
procedure entry inc; begin n := n + 1 end;
begin n := 0 end;
var c: counter;
begin c := counter; c.inc end.
