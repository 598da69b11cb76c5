"Which of several monitors is called is known where its index is a number. The program calls rooms[1] and any of the desks."
type room = monitor;
  var bell: queue;
  procedure entry sit; begin delay(bell) end;
  procedure entry ring; begin continue(bell) end;
begin end;
guest = process(r: room); begin r.sit end;
var rooms, desks: array [1..2] of room; a, b, c: guest; i: integer;
begin
  init rooms[1], rooms[2], desks[1], desks[2], a(rooms[1]), b(rooms[2]), c(desks[2]);
  i := 1; desks[1].sit; rooms[1].ring; desks[i].ring
end.
