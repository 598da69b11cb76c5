"Fifteen workers fetch work from a pool, put results into a store, and one of them goes home early because the pool is closed"
type pool = monitor; var left: integer; idle: array [1..15] of queue; waiting: integer;
procedure entry fetch(who: integer; var job: integer);
begin if left = 0 then begin waiting := waiting + 1; delay(idle[who]) end; job := left; left := left - 1 end;
begin left := 3; waiting := 0 end;
store = monitor(p: pool); var sum: integer; done: set of 0..15;
procedure entry put(who, job: integer);
begin sum := sum + job; done := done or (.who.) end;
begin sum := 0; done := (..) end;
worker = process(p: pool; s: store; n: integer); var j: integer;
begin p.fetch(n, j); s.put(n, j); display(100 * n + j) end;
var p: pool; s: store; w: array [1..15] of worker;
begin init p, s(p);
init w[1](p,s,1), w[2](p,s,2), w[3](p,s,3), w[4](p,s,4), w[5](p,s,5), w[6](p,s,6), w[7](p,s,7), w[8](p,s,8), w[9](p,s,9), w[10](p,s,10), w[11](p,s,11), w[12](p,s,12), w[13](p,s,13), w[14](p,s,14), w[15](p,s,15)
end.
