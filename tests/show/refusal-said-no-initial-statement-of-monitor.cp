type door = monitor;
var n: integer;
procedure entry visit;
begin n := n + 1 end;
var d: door;
begin init d end.
