type multi = monitor;
  var q: array (1..3) of queue; n: integer;
  procedure entry pause(i: integer);
  begin delay(q[i]) end;
begin n := 0 end;
var m: multi;
begin init m; m.pause(1) end.
