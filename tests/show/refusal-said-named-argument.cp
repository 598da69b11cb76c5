type sem = monitor(k: integer);
var n: integer;
begin n := k end;
var s: sem;
begin init s(k := 3) end.
