"A bounded buffer that says what is always true of it. The annotations before put
 are the invariants of the monitor: they are looked at wherever a process gives the
 monitor up, in each schedule.

 Options: --choices 14

 Look for: 'finished output 123' is the only outcome, so no schedule breaks an
 invariant. Take a test away, or a wait, and see which one is broken, and where.
 docs/TUTORIAL.md does it."
const size = 2; last = 3;
type
buffer = monitor;
  var place: array [0..1] of integer; first, count: integer; sender, receiver: queue;
  "(* invariant (0 <= count) and (count <= size) *)"
  "(* invariant (0 <= first) and (first < size) *)"
  procedure entry put(x: integer);
  begin
    if count = size then delay(sender);
    place[(first + count) mod size] := x;
    count := count + 1;
    continue(receiver)
  end;
  procedure entry get(var x: integer);
  begin
    if count = 0 then delay(receiver);
    x := place[first];
    first := (first + 1) mod size;
    count := count - 1;
    continue(sender)
  end;
begin first := 0; count := 0 end;

producer = process(b: buffer);
  var i: integer;
begin for i := 1 to last do b.put(i) end;

var b: buffer; p: producer; i, x, all: integer;
begin
  init b, p(b);
  for i := 1 to last do begin b.get(x); all := 10 * all + x end;
  display(all)
end.
