"A routine that is never called, a process that is never started, and a type without components."
type
k = class;
procedure entry unused;
begin
  display(9)
end;
procedure entry used;
begin
  display(1)
end;
begin
end;
none = monitor;
var q: queue;
procedure entry wait;
begin
  delay(q)
end;
begin
  display(8)
end;
d = process;
begin
  display(7)
end;
var c: k; e: d;
begin
  init c;
  c.used
end.
