"The place of a call's result has 0 until the call is made: of type span this is a state of its own."
type span = 5..6;
m = monitor
  procedure entry take(n: integer); begin end;
  function entry least: span; begin end;
begin end;
p = process(c: m); begin cycle c.take(c.least) end end;
q = process(c: m); begin end;
var c: m; x: p; y: q;
begin init c, x(c), y(c) end.
