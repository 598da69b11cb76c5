type track = process(n: integer);
var k: integer;
begin
  while k < n do k := k + 1 end;
  k := 0
end;
var t: track;
begin init t(3) end.
