"5 philosophers who take the fork with the lesser number first."
type
fork = monitor;
  var taken: boolean; hungry: queue;
  procedure entry take;
  begin if taken then delay(hungry); taken := true end;
  procedure entry put;
  begin taken := false; continue(hungry) end;
begin taken := false end;

philosopher = process(first, second: fork);
begin cycle first.take; second.take; second.put; first.put end end;

var forks: array [1..5] of fork; p: array [1..5] of philosopher;
begin
  init forks[1], forks[2], forks[3], forks[4], forks[5];
  init p[1](forks[1], forks[2]), p[2](forks[2], forks[3]), p[3](forks[3], forks[4]), p[4](forks[4], forks[5]), p[5](forks[1], forks[5])
end.
