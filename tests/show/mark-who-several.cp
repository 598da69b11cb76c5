"A barber and two guests who wait for good, all of them."
type
place = 1..3;
room = monitor;
  var seats: array [place] of queue;
  procedure entry sit(here: place);
  begin delay(seats[here]) end;
begin end;

guest = process(r: room; here: place);
begin r.sit(here) end;

barber = process(r: room);
begin r.sit(3) end;

var r: room; b: barber; guests: array [1..2] of guest;
begin
  init r, b(r), guests[1](r, 1), guests[2](r, 2)
end.
