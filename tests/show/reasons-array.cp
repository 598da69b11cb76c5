"An array of queues. Two entries continue the second of them, one by its number and one by an index; another one continues the first."
type gate = monitor;
  var q: array [1..3] of queue;
  procedure entry wait(i: integer); begin delay(q[i]) end;
  procedure entry first; begin continue(q[1]) end;
  procedure entry second; begin continue(q[2]) end;
  procedure entry any(i: integer); begin continue(q[i]) end;
begin end;
var g: gate;
begin init g; g.second; g.any(2); g.first; g.any(2); g.any(3); g.wait(2) end.
