"Monitors and numbers that are given wait for nobody: what a monitor calls in its initial statement is told by the run alone."
type box = monitor;
  var x: integer;
  procedure entry put(v: integer);
  begin x := v end;
begin x := 0 end;
worker = process(b: box; n: integer);
begin b.put(n) end;
keeper = monitor(b: box);
  procedure entry go;
  begin b.put(0) end;
begin end;
var b: box; k: keeper; n: integer; w: worker;
begin n := 3; init k(b), b, w(b, n) end.
