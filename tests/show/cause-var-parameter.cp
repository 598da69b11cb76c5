type c = class; procedure entry half(var n: integer); begin n := n div (n - 6) end; begin end;
var x: c; a: array [1..2] of integer;
begin
  init x;
  a[2] := 6;
  x.half(a[2])
end.
