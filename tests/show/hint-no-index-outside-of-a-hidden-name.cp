"In the type the name is that of another array, in the routine that of another constant, and a constant of an enumeration has a place of its own."
const size = 9;
type letters = (x, y, z);
t = class;
  const size = 2;
  var a: array [1..size] of integer;
  procedure entry go;
  const size = 1;
  var b: array [y..z] of integer;
  begin a[size] := 1; a[2] := 1; b[z] := 1 end;
begin a[size] := 1 end;
var a: array [1..size] of integer; c: t;
begin init c; c.go; a[size] := 1; a[9] := 2 end.
