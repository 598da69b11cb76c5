"A bounded buffer. A producer sends 1, 2 and 3 through a buffer of two places; the
 program itself is the consumer, and displays what it got as the digits of one
 number.

 Options: --choices 14

 Look for: 'finished output 123' is the only outcome. Nothing is lost, nothing
 comes twice, the order is kept, and nobody waits for good: a full buffer delays
 the producer, an empty one the consumer, and each call wakes the other side. With
 --schedule 1.1.1.1.1.1 the trace shows the producer ahead: its third call finds
 the buffer full and is delayed."
const size = 2; last = 3;
type
buffer = monitor;
  var place: array [0..1] of integer; first, count: integer; sender, receiver: queue;
  procedure entry put(x: integer);
  begin
    if count = size then delay(sender);
    place[(first + count) mod size] := x;
    count := count + 1;
    continue(receiver)
  end;
  procedure entry get(var x: integer);
  begin
    if count = 0 then delay(receiver);
    x := place[first];
    first := (first + 1) mod size;
    count := count - 1;
    continue(sender)
  end;
begin first := 0; count := 0 end;

producer = process(b: buffer);
  var i: integer;
begin for i := 1 to last do b.put(i) end;

var b: buffer; p: producer; i, x, all: integer;
begin
  init b, p(b);
  for i := 1 to last do begin b.get(x); all := 10 * all + x end;
  display(all)
end.
