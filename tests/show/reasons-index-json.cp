type room = monitor;
  var chair: array [1..2] of queue;
  procedure entry sit(i: integer); begin delay(chair[i]) end;
  procedure entry first; begin continue(chair[1]) end;
  procedure entry call(i: integer); begin continue(chair[i]) end;
begin end;
guest = process(r: room); begin r.sit(1); r.call(2) end;
var r: room; g: guest;
begin init r, g(r); r.sit(2) end.
