"Characters, constants of an enumeration, queues and components."
type day = (monday, tuesday, wednesday, thursday);
late = wednesday..thursday;
desk = monitor;
  var bell: array [1..2] of queue;
  procedure entry wait;
  begin if empty(bell[1]) then delay(bell[3]) end;
  procedure entry ring;
  begin continue(bell[2]) end;
begin end;
var a: array ['a'..'z'] of integer; b: array [late] of integer; d: array [0..1] of desk;
begin
  a['A'] := 1;
  b[tuesday] := 2;
  init d[0], d[2];
  d[1].ring
end.
