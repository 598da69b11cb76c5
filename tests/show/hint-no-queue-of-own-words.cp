"The program has a delay of its own, and the continue stands in another entry, inside a loop; a queue in which nobody waits needs no continue."
type box = monitor;
  var n: integer; ready, unused: queue;
  procedure delays;
  begin if n = 0 then delay(ready) end;
  procedure entry get;
  begin delays; n := n - 1 end;
  procedure entry put;
  begin repeat n := n + 1; if n > 2 then continue(ready) until n = 9 end;
begin n := 0 end;
clock = monitor;
  var n: integer;
  procedure delay(k: integer);
  begin n := n + k end;
  procedure entry tick(k: integer);
  begin delay(k) end;
begin n := 0 end;
var b: box; c: clock;
begin init b, c; b.put; c.tick(1) end.
