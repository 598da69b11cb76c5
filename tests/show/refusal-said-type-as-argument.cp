type counter = monitor
var n: integer;
begin n := 0 end;
worker = process(c: counter);
begin end;
var c: counter; w: worker;
begin init c, w(counter) end.
