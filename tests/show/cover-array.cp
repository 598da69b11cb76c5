"An array of queues, of which one is used. Who is delayed is never woken."
type
gate = monitor;
var wait: array [1..2] of queue;
procedure entry pass(n: integer);
begin
  if n = 1 then delay(wait[n]);
  continue(wait[n])
end;
begin end;
p = process(g: gate);
begin g.pass(1) end;
var g: gate; a: p;
begin
  init g, a(g);
  g.pass(2)
end.
