type s = monitor(n: integer); begin end;
var a: s;
begin if init a(3) then display(1) end.
