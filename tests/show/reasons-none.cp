"Nobody continues the queue."
type m = monitor; var q: queue; procedure entry wait; begin delay(q) end; begin end;
var a: m;
begin init a; a.wait end.
