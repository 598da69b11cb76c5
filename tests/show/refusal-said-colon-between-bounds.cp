const a = 1; b = 5;
var x: a:b;
begin end.
