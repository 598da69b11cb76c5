var a: integer[3];
begin
  a[1] := 1
end.
