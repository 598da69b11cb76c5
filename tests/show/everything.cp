"Nearly everything of the language in one program: constants, an enumeration, a
 monitor with a queue, a class with a set, a process, routines and functions.

 Options: --choices 11

 Look for: the output 4, the value that the counter reaches, and true, in either
 order; docs/LANGUAGE.md goes through this program."
const last = 3;
type
colour = (red, green, blue);

counter = monitor(first: integer);              "its parameters are constant"
  var value: integer; high: queue;              "permanent variables"
  procedure add(x: integer);                    "a local routine"
  begin value := value + x end;
  procedure entry raise;                        "an entry: called as c.raise"
  begin add(1); if value > last then continue(high) end;
  function entry reached: integer;
  begin if value <= last then delay(high); reached := value end;
begin value := first end;                       "the initial statement"

shades = class;                                 "belongs to one process"
  var used: set of colour;
  procedure entry use(c: colour);
  begin used := used or [c] end;
  function entry has(c: colour): boolean;
  begin has := c in used end;
begin used := [] end;

worker = process(c: counter; times: integer);
  var s: shades; i: integer;
begin
  init s;
  for i := 1 to times do begin c.raise; s.use(green) end;
  display(s.has(green))
end;

var c: counter; w: worker;
begin
  init c(1), w(c, last);
  display(c.reached)
end.
