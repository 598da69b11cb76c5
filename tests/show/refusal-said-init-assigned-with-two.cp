type s = monitor(n, m: integer); begin end;
var a: s;
begin a := init(3, 4) end.
