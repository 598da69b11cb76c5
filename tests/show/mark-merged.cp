"Five dining philosophers, mended by an order. As philosophers-five.cp, but the
 last one takes its right fork first, so that all take the fork with the lesser
 number first.

 Options: --merge --choices 54

 Look for: one outcome, in all of 3,845,550,995,913,149,990,301,144,182 schedules."
const n = 5;
type
fork = monitor;
  var taken: boolean; hungry: queue;
  procedure entry take;
  begin if taken then delay(hungry); taken := true end;
  procedure entry put;
  begin taken := false; continue(hungry) end;
begin taken := false end;

philosopher = process(first, second: fork);
begin first.take; second.take; second.put; first.put end;

var forks: array [1..n] of fork; p: array [1..n] of philosopher; i: integer;
begin
  for i := 1 to n do init forks[i];
  for i := 1 to n - 1 do init p[i](forks[i], forks[i + 1]);
  init p[n](forks[1], forks[n])
end.
