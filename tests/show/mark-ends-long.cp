"The producer sends 60 numbers, and the consumer asks for one more. It waits for
 ever at the end of each schedule, of which the shortest has more than 100 choices."
type
buffer = monitor;
  var full: boolean; value: integer; sender, receiver: queue;
  procedure entry put(v: integer);
  begin
    if full then delay(sender);
    value := v; full := true; continue(receiver)
  end;
  procedure entry get(var v: integer);
  begin
    if not full then delay(receiver);
    v := value; full := false; continue(sender)
  end;
begin full := false end;

producer = process(b: buffer);
  var i: integer;
begin
  for i := 1 to 60 do b.put(i)
end;

consumer = process(b: buffer);
  var i, v: integer;
begin
  for i := 1 to 61 do b.get(v)
end;

var b: buffer; p: producer; c: consumer;
begin
  init b, p(b), c(b)
end.
