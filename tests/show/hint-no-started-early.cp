"Monitors come first; one that is initialised in a branch before may be there, and in a loop it is not known what comes first."
type box = monitor;
  var x: integer;
  procedure entry put(v: integer);
  begin x := v end;
begin x := 0 end;
worker = process(b: box; n: integer);
begin b.put(n) end;
keeper = monitor(b: box);
begin b.put(0) end;
var b, c: box; d: array [1..2] of box; k: keeper; v, w: worker; all: array [1..2] of worker; i: integer;
begin
  init b, v(b, 1), k(b);
  i := 1;
  if i = 1 then init c;
  init w(c, 2);
  if i = 2 then init c;
  for i := 1 to 2 do begin if i = 2 then init all[1](d[1], 1), all[2](d[2], 2) else init d[1], d[2] end
end.
