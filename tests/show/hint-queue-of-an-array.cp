"No continue names any of the queues."
type hall = monitor;
  var place: array [1..3] of queue;
  procedure entry sit(who: integer);
  begin delay(place[who]) end;
  function entry free(who: integer): boolean;
  begin free := empty(place[who]) end;
begin end;
var h: hall;
begin init h; display(h.free(1)) end.
