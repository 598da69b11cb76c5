"Five dining philosophers, mended by a butler. As philosophers-five.cp, but a
 butler lets only four of them sit down at once, so one of them always has two forks.

 Options: --merge --choices 75 --states 300000

 Look for: one outcome, in all of
 21,041,294,827,320,261,119,444,670,379,923,855,762,445 schedules. The default of
 200,000 states for a layer is too small for this one, which takes some seconds."
const n = 5;
type
fork = monitor;
  var taken: boolean; hungry: queue;
  procedure entry take;
  begin if taken then delay(hungry); taken := true end;
  procedure entry put;
  begin taken := false; continue(hungry) end;
begin taken := false end;

butler = monitor;
  var seated: integer; door: queue;
  procedure entry sit;
  begin if seated = n - 1 then delay(door); seated := seated + 1 end;
  procedure entry rise;
  begin seated := seated - 1; continue(door) end;
begin seated := 0 end;

philosopher = process(b: butler; left, right: fork);
begin b.sit; left.take; right.take; right.put; left.put; b.rise end;

var b: butler; forks: array [1..n] of fork; p: array [1..n] of philosopher; i: integer;
begin
  init b;
  for i := 1 to n do init forks[i];
  for i := 1 to n do init p[i](b, forks[i], forks[i mod n + 1])
end.
