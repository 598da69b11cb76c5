"Dining philosophers who always eat. As in philosophers-deadlock.cp, but both
 take fork 1 before fork 2, so that nobody who has fork 2 waits for fork 1.

 Options: --choices 19

 Look for: two outcomes, both finished, either philosopher first. Nineteen choices
 are enough for every schedule to come to its end, so no choice-limit hides an
 all-waiting that comes later."
type
fork = monitor;
  var taken: boolean; hungry: queue;
  procedure entry take;
  begin if taken then delay(hungry); taken := true end;
  procedure entry put;
  begin taken := false; continue(hungry) end;
begin taken := false end;

philosopher = process(first, second: fork; me: integer);
begin
  first.take; second.take;
  display(me);
  second.put; first.put
end;

var forks: array [1..2] of fork; p: philosopher;
begin
  init forks[1], forks[2], p(forks[1], forks[2], 1);
  forks[1].take; forks[2].take;
  display(0);
  forks[2].put; forks[1].put
end.
