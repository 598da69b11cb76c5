"A wait that is never needed: the box is filled before it is emptied."
type
box = monitor;
var full: boolean; sender, receiver: queue;
procedure entry send;
begin
  if full then delay(sender);
  full := true;
  continue(receiver)
end;
procedure entry receive;
begin
  if not full then
    delay(receiver);
  full := false;
  continue(sender)
end;
begin full := false end;
var b: box;
begin
  init b;
  b.send;
  b.receive
end.
