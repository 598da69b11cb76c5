"Under signals continue whoever is woken looks again here, and waits again."
type m = monitor;
  var ok: boolean; q: queue;
  procedure entry get; begin while not ok do delay(q) end;
  procedure entry tell; begin continue(q) end;
begin end;
p = process(a: m); begin a.get end;
var a: m; x: p;
begin init a, x(a); a.tell end.
