type cell = monitor;
var n: integer;
procedure entry put(old value: integer);
begin n := 1 end;
begin n := 0 end;
begin end.
