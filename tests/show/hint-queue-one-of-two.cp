"put opens the queue in which it waits itself, and nobody opens the other; two places where one waits are told once."
type box = monitor;
  var full: boolean; x: integer; sender, receiver: queue;
  procedure entry put(v: integer);
  begin
    if full then delay(sender);
    x := v; full := true;
    continue(sender)
  end;
  procedure entry get(var v: integer);
  begin
    if not full then delay(receiver);
    v := x; full := false;
    continue(sender)
  end;
  procedure entry look(var v: integer);
  begin
    if not full then delay(receiver);
    v := x
  end;
begin full := false end;
var b: box;
begin init b; b.put(1) end.
