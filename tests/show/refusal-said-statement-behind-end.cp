type track = process(n: integer);
begin
  if n > 3 then display(n) end;
  display(0)
end;
var t: track;
begin init t(3) end.
