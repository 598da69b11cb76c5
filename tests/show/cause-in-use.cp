type m = monitor; var q: array [1..2] of queue; procedure entry wait(i: integer); begin delay(q[i]) end; begin end;
p = process(b: m); begin b.wait(2) end;
var b: m; x, y: p;
begin
  init b, x(b), y(b)
end.
