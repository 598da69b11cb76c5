"x has signalled a before the program waits there, and is behind that now. Nobody signals b."
type m = monitor;
  var q: queue;
  procedure entry wait; begin delay(q) end;
  procedure entry signal; begin continue(q) end;
begin end;
p = process(a, b: m); begin a.signal; b.wait end;
var a, b: m; x: p;
begin init a, b, x(a, b); a.wait end.
