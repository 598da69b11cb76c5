"A buffer of one place between a producer and a consumer who never end.

 Options: --ends

 Look for: 'ends 0'. Whatever the schedule, and however long, nobody is left
 waiting and nothing goes wrong. The consumer can come to display both numbers,
 and no other. Take a 'continue' away, and 'all-waiting' is possible."
type
bit = 0..1;
buffer = monitor;
  var full: boolean; slot: integer; sender, receiver: queue;
  procedure entry put(x: integer);
  begin
    if full then delay(sender);
    slot := x; full := true;
    continue(receiver)
  end;
  procedure entry get(var x: integer);
  begin
    if not full then delay(receiver);
    x := slot; full := false;
    continue(sender)
  end;
begin full := false end;

producer = process(b: buffer);
  var x: bit;
begin cycle b.put(x); x := 1 - x end end;

consumer = process(b: buffer);
  var x: integer;
begin cycle b.get(x); display(x) end end;

var b: buffer; p: producer; c: consumer;
begin init b, p(b), c(b) end.
