"A second process in a queue."
type
m = monitor;
  var q: queue;
  procedure entry wait; begin delay(q) end;
begin end;
p = process(c: m); begin c.wait end;
var c: m; a, b: p;
begin init c, a(c), b(c) end.
