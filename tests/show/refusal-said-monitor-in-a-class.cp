type m = monitor begin end;
c = class
var a: m;
begin init a end;
var b: c;
begin init b end.
