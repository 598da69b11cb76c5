"A guest looks around a hundred and ten times, and then waits for good, while
 two hosts go on."
type
room = monitor;
  var quiet: queue;
  procedure entry rest;
  begin delay(quiet) end;
  procedure entry tidy;
  begin end;
begin end;

guest = process(r: room);
var i: integer;
begin
  for i := 1 to 110 do display(0);
  r.rest
end;

host = process(r: room);
begin cycle r.tidy end end;

var r: room; g: guest; h, k: host;
begin init r, g(r), h(r), k(r) end.
