var a: array [0..1] of char;
begin
  a[0] := pred(a[1])
end.
