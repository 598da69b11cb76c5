var a: array [1..3] of integer;
begin
  display(a[1)
end.
