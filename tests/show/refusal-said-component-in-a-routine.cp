type m = monitor begin end;
p = process
procedure go;
var a: m;
begin end;
begin go end;
var b: p;
begin init b end.
