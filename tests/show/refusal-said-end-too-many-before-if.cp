type m = monitor
var n: integer;
procedure entry p;
begin
  n := 1
end;
  if n = 1 then n := 2
end;
begin n := 0 end;
begin end.
