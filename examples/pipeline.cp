"A pipeline with classes. The source computes 1, 4 by two classes of its own, the
 numbers and their squares, and puts them into a pipe; the program takes them out
 and adds them up in a class.

 Options: --choices 10

 Look for: one outcome, 'finished output 5'. A class belongs to one process, so
 that its calls need no exclusion and no schedule comes between them: only the
 two calls of the pipe are places where the processes meet. No rule but C14 is
 needed for this: a class can't be given to a second process."
type
pipe = monitor;
  var full: boolean; value: integer; sender, receiver: queue;
  procedure entry put(x: integer);
  begin
    if full then delay(sender);
    value := x; full := true;
    continue(receiver)
  end;
  procedure entry get(var x: integer);
  begin
    if not full then delay(receiver);
    x := value; full := false;
    continue(sender)
  end;
begin full := false end;

numbers = class;
  var last: integer;
  function entry next: integer;
  begin last := last + 1; next := last end;
begin last := 0 end;

squares = class(from: numbers);
  var n: integer;
  function entry next: integer;
  begin n := from.next; next := n * n end;
begin n := 0 end;

sums = class;
  var sum: integer;
  procedure entry add(x: integer);
  begin sum := sum + x end;
  function entry total: integer;
  begin total := sum end;
begin sum := 0 end;

source = process(right: pipe);
  var n: numbers; s: squares; i: integer;
begin
  init n, s(n);
  for i := 1 to 2 do right.put(s.next)
end;

var middle: pipe; s: source; all: sums; i, x: integer;
begin
  init middle, all, s(middle);
  for i := 1 to 2 do begin middle.get(x); all.add(x) end;
  display(all.total)
end.
