var a: array [1..3] of integer; i: integer;
begin
  a[i] := 1
end.
