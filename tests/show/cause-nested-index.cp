var a, b: array [1..3] of integer;
begin
  a[1] := 9;
  b[a[1]] := 30000 + b[2]
end.
