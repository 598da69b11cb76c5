"Of two boxes the second is too late; and in a loop all workers are started before any box."
type box = monitor;
  var x: integer;
  procedure entry put(v: integer);
  begin x := v end;
begin x := 0 end;
worker = process(b: box; n: integer);
begin b.put(n) end;
var a, c: array [1..2] of box; v, w: worker; all: array [1..2] of worker; i: integer;
begin
  init a[1], v(a[1], 1), w((a[2]), 2);
  init a[2];
  for i := 1 to 2 do init all[i](c[i], i);
  for i := 1 to 2 do init c[i]
end.
