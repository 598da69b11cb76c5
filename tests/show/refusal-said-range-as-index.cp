var a: array [1..5] of integer;
begin
  display(a[1..2])
end.
