type box = monitor;
var n: integer;
procedure entry put(x: integer);
begin n := x end;
begin n := 0 end;
user = process(b: box);
begin call b.put(3) end;
begin end.
