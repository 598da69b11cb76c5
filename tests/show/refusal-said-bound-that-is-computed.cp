const n = 3;
var a: array [0..n - 1] of integer;
begin
  a[0] := 1
end.
