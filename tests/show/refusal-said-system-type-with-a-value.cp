type counter = monitor(0)
var n: integer;
begin n := 0 end;
var c: counter;
begin init c end.
