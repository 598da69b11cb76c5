type w = monitor begin end;
var a: array [1..2] of array [1..2] of w;
begin end.
