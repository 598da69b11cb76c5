"Who asks again and again lets others go on meanwhile; and an if that is the last statement has nothing behind it."
type flag = monitor;
  var up: boolean;
  procedure entry raise;
  begin up := true end;
  function entry is_up: boolean;
  begin is_up := up end;
begin up := false end;
waiter = process(f: flag);
begin
  while not f.is_up do ;
  display(1);
  if f.is_up then
end;
var f: flag; w: waiter;
begin init f, w(f); f.raise end.
