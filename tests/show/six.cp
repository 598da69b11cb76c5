"Five cooks and one oven; the program looks on."
type
oven = monitor;
  var busy: boolean; free: queue; done: integer;
  procedure entry use(cook: integer);
  begin if busy then delay(free); busy := true end;
  procedure entry leave;
  begin busy := false; done := done + 1; continue(free) end;
begin busy := false; done := 0 end;
cook = process(o: oven; number: integer);
begin o.use(number); display(number); o.leave end;
var o: oven; cooks: array [1..5] of cook;
begin
  init o, cooks[1](o, 1), cooks[2](o, 2), cooks[3](o, 3), cooks[4](o, 4), cooks[5](o, 5)
end.
