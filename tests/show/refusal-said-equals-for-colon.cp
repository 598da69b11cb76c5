type box = monitor; begin end;
var b = box;
begin init b end.
