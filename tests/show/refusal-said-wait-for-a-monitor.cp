type sem = monitor
var n: integer; q: queue;
procedure entry down; begin if n = 0 then delay(q); n := n - 1 end;
procedure entry up; begin n := n + 1; continue(q) end;
begin n := 1 end;
p = process(s: sem);
begin wait(s); display(1); signal(s) end;
var m: sem; a: p;
begin init m, a(m) end.
