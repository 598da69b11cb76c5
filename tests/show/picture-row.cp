"Dining philosophers who may starve together. Two philosophers, of whom the
 program is one, sit between two forks, and each takes the left one first. Who
 eats displays its number, 0 or 1.

 Options: --choices 19; --choices 5 finds it

 Look for: 'all-waiting output -'. Each has its left fork and waits for the other
 one, which nobody will put back. The trace of the first such schedule,
 0.0.1.0.0, shows two delays at its end. 54 of the 1,330 schedules end so; in all
 others both eat. philosophers-ordered.cp is the same without this outcome."
type
fork = monitor;
  var taken: boolean; hungry: queue;
  procedure entry take;
  begin if taken then delay(hungry); taken := true end;
  procedure entry put;
  begin taken := false; continue(hungry) end;
begin taken := false end;

philosopher = process(left, right: fork; me: integer);
begin
  left.take; right.take;
  display(me);
  right.put; left.put
end;

var forks: array [1..2] of fork; p: philosopher;
begin
  init forks[1], forks[2], p(forks[1], forks[2], 1);
  forks[2].take; forks[1].take;
  display(0);
  forks[1].put; forks[2].put
end.
