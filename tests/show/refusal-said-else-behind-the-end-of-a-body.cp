type m = monitor
var i: integer; q: queue;
procedure entry p;
begin
  if i = 0 then
    i := 1;
    continue(q);
  end
  else
  begin
    i := 2
  end
end;
begin i := 0 end;
var a: m;
begin init a end.
