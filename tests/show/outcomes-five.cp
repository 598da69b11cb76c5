"Five dining philosophers who may starve together. The program starts five of
 them around a table of five forks, and each takes the left fork first.

 Options: --merge --choices 54; --merge --choices 22 finds it

 Look for: 'all-waiting output -'. Each holds its left fork and waits for the
 right one. 39,260,639,963,043 of the 3,446,904,610,002,404,351,712,286,642
 schedules end so, one in 88 million million. No table of rows could hold them:
 --merge counts schedules that come to one state together.
 philosophers-five-ordered.cp and philosophers-five-butler.cp are two ways to mend it."
const n = 5;
type
fork = monitor;
  var taken: boolean; hungry: queue;
  procedure entry take;
  begin if taken then delay(hungry); taken := true end;
  procedure entry put;
  begin taken := false; continue(hungry) end;
begin taken := false end;

philosopher = process(left, right: fork);
begin left.take; right.take; right.put; left.put end;

var forks: array [1..n] of fork; p: array [1..n] of philosopher; i: integer;
begin
  for i := 1 to n do init forks[i];
  for i := 1 to n do init p[i](forks[i], forks[i mod n + 1])
end.
