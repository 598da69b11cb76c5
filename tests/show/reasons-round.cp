"Each waits for the other one: x would signal a in a loop, in a routine of its class, and the program b in a branch."
type m = monitor;
  var q: queue;
  procedure entry wait; begin delay(q) end;
  procedure entry signal; begin continue(q) end;
begin end;
c = class(a: m);
  procedure inner; begin a.signal end;
  procedure entry poke; begin inner end;
begin end;
p = process(a, b: m);
  var k: c; i: integer;
begin init k(a); b.wait; for i := 1 to 2 do k.poke end;
var a, b: m; x: p; n: integer;
begin
  init a, b, x(a, b);
  a.wait;
  case n of 0: b.signal; 1: n := 2 end
end.
