"A process whose name is a word of expectations waits for good."
type
room = monitor;
  var seat: queue;
  procedure entry sit;
  begin delay(seat) end;
begin end;

guest = process(r: room);
begin r.sit end;

var r: room; finished: guest;
begin
  init r, finished(r)
end.
