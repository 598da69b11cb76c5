"Three producers and three consumers at a buffer of two places. Each producer
 sends its number once; each consumer takes one and displays it. There is a queue
 for each who may wait, since a queue holds one process.

 Options: --merge --choices 29

 Look for: the six orders of 1, 2 and 3, and nobody left waiting."
const size = 2;
type
who = 1..3;
buffer = monitor;
  var place: array [0..1] of integer; first, count, i: integer;
    sender, receiver: array [who] of queue;
  procedure entry put(me: who; x: integer);
  begin
    while count = size do delay(sender[me]);
    place[(first + count) mod size] := x;
    count := count + 1;
    i := 1; while (i < 3) and empty(receiver[i]) do i := i + 1;
    continue(receiver[i])
  end;
  procedure entry get(me: who; var x: integer);
  begin
    while count = 0 do delay(receiver[me]);
    x := place[first];
    first := (first + 1) mod size;
    count := count - 1;
    i := 1; while (i < 3) and empty(sender[i]) do i := i + 1;
    continue(sender[i])
  end;
begin first := 0; count := 0; i := 1 end;

producer = process(b: buffer; me: who);
begin b.put(me, me) end;

consumer = process(b: buffer; me: who);
  var x: integer;
begin b.get(me, x); display(x) end;

var b: buffer; p: array [who] of producer; c: array [who] of consumer; i: who;
begin
  init b;
  for i := 1 to 3 do init p[i](b, i), c[i](b, i)
end.
