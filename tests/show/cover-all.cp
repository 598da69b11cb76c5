"Two who wait for each other in turn: everything is covered."
type
turn = monitor;
var taken: boolean; q: queue;
procedure entry take;
begin
  if taken then delay(q);
  taken := true
end;
procedure entry put;
begin
  taken := false;
  continue(q)
end;
begin taken := false end;
p = process(t: turn);
begin t.take; t.put end;
var t: turn; a: p;
begin
  init t, a(t);
  t.take;
  t.put
end.
