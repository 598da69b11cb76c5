"Who comes first waits for ever: the other one goes by. What is displayed
 does not tell who it was."
type
door = monitor;
  var came: boolean; inside: queue;
  procedure entry pass;
  begin
    if not came then begin came := true; delay(inside) end
  end;
begin came := false end;

guest = process(d: door);
begin d.pass end;

var d: door; x: guest; others: array [1..1] of guest;
begin
  init d, x(d), others[1](d)
end.
