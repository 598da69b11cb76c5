type m = monitor
type qs = array [1..2] of queue;
var q: qs;
procedure go(p: qs); begin end;
begin end;
begin end.
