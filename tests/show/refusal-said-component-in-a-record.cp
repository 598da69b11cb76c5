type m = monitor begin end;
r = record a: m; b: integer end;
var x: r;
begin end.
