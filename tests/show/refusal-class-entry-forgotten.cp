type
mailbox = monitor;
  var full: boolean; letter: integer; sender, receiver: queue;
  procedure put(x: integer);
  begin
    if full then delay(sender);
    letter := x; full := true;
    continue(receiver)
  end;
begin full := false end;
writer = process(m: mailbox);
begin m.put(5) end;
var m: mailbox; w: writer;
begin init m, w(m) end.
