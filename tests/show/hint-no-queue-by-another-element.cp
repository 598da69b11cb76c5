"Another element of the same queues is named, by an index that is not known."
type hall = monitor;
  var place: array [1..3] of queue;
  procedure entry sit(who: integer);
  begin if not empty(place[1]) then delay(place[who]) end;
  procedure entry wake(who: integer);
  begin continue(place[4 - who]) end;
begin end;
var h: hall;
begin init h; h.wake(1) end.
