"What comes back from calls."
type
pair = record x, y: integer end;
m = monitor;
  var value: integer; line: array [1..2] of integer; q: queue;
  procedure entry read(var a: integer; var b: pair);
  begin value := value + 1; a := value; b.x := 10; b.y := 20 end;
  function entry next: integer;
  begin value := value + 1; next := value end;
  procedure entry first(var a: integer);
  begin a := 7; continue(q) end;
  procedure entry wait(var a: integer);
  begin delay(q); a := 9 end;
begin value := 0 end;
p = process(c: m); var z: integer;
begin c.wait(z); display(z) end;
var c: m; a: p; list: array [1..2] of integer; r: pair; x: integer;
begin
  init c, a(c);
  c.read(list[2], r);
  x := c.next;
  c.first(x);
  c.first(list[1])
end.
