"The sign of a gate."
type
m = monitor;
  procedure entry speak(number: integer);
  begin display(number) end;
begin end;
p = process(c: m; number: integer);
begin c.speak(number) end;
var c: m; a, b: p;
begin init c, a(c, 1), b(c, 2); c.speak(0) end.
