var a: array [1..2] of record n: integer end;
begin
  a[1]n := 1
end.
