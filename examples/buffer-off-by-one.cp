"The buffer of buffer-invariant with a test that is wrong by one: put waits where
 there are more than size items, and not where there are size of them.

 Options: --choices 14

 Look for: the run error 'invariant', in 2 of 834 schedules. The producer has to be
 ahead by both places and to come a third time before the first get. Its third item
 goes to the place of the first one, which nobody has taken yet, and count is 3."
const size = 2; last = 3;
type
buffer = monitor;
  var place: array [0..1] of integer; first, count: integer; sender, receiver: queue;
  "(* invariant (0 <= count) and (count <= size) *)"
  "(* invariant (0 <= first) and (first < size) *)"
  procedure entry put(x: integer);
  begin
    if count > size then delay(sender);
    place[(first + count) mod size] := x;
    count := count + 1;
    continue(receiver)
  end;
  procedure entry get(var x: integer);
  begin
    if count = 0 then delay(receiver);
    x := place[first];
    first := (first + 1) mod size;
    count := count - 1;
    continue(sender)
  end;
begin first := 0; count := 0 end;

producer = process(b: buffer);
  var i: integer;
begin for i := 1 to last do b.put(i) end;

var b: buffer; p: producer; i, x, all: integer;
begin
  init b, p(b);
  for i := 1 to last do begin b.get(x); all := 10 * all + x end;
  display(all)
end.
