"Calls with other arguments are no repetition, nor are other values"
type
box = monitor;
  var n: integer;
  procedure entry put(x: integer);
  begin n := x end;
  function entry get: integer;
  begin get := n; n := n - 1 end;
begin n := 0 end;

var b: box; i, x: integer;
begin
  init b;
  for i := 1 to 4 do b.put(i);
  for i := 1 to 4 do b.put(7);
  for i := 1 to 4 do x := b.get;
  for i := 1 to 4 do display(i);
  for i := 1 to 4 do display(9)
end.
