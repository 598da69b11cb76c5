type sem = monitor(k: integer);
var n: integer;
begin n := k end;
var s: sem;
begin
  s := init(3)
end.
