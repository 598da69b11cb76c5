"Two clerks stamp a hundred and ten letters each, and then each waits for a
 word that the other would give."
type
desk = monitor;
  var told: queue;
  procedure entry hear;
  begin delay(told) end;
  procedure entry tell;
  begin continue(told) end;
begin end;

clerk = process(mine, other: desk);
var i: integer;
begin
  for i := 1 to 110 do display(0);
  mine.hear;
  other.tell
end;

var d, e: desk; a, b: clerk;
begin init d, e, a(d, e), b(e, d) end.
