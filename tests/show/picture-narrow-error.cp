"Fifteen workers wait in a row, and one of them divides by zero between two who wait"
type
place = monitor;
  var waiting: integer; late: array [1..15] of queue;
  procedure entry stay(me: integer);
  begin waiting := waiting + 1; delay(late[me]) end;
  procedure entry wake(me: integer);
  begin continue(late[me]) end;
begin waiting := 0 end;

worker = process(p: place; me: integer);
  var x: integer;
begin
  if me = 8 then begin p.wake(7); x := me div (me - 8) end
  else p.stay(me)
end;

var p: place; w: array [1..15] of worker; i: integer;
begin init p; for i := 1 to 15 do init w[i](p, i) end.
