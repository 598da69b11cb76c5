var a: array [3] of integer;
begin
  a[1] := 1
end.
