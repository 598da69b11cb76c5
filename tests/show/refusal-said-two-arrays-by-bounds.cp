var a: array [1..3] of integer; b: array [1..5] of integer;
begin
  a := b
end.
