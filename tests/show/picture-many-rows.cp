"Five members of a club share one telephone. Who calls hangs up before the next one may call."
type phone = monitor; var busy: boolean; calls: integer; line: array [1..5] of queue; waits: array [1..5] of boolean; n: integer;
procedure entry pick_up(who: integer; var number_of_calls: integer);
begin if busy then begin waits[who] := true; delay(line[who]); waits[who] := false end; busy := true; calls := calls + 1; number_of_calls := calls end;
procedure entry hang_up;
var w: integer;
begin busy := false; w := 1; while w < 5 do begin if waits[w] then begin continue(line[w]) end; w := w + 1 end; continue(line[5]) end;
begin busy := false; calls := 0; for n := 1 to 5 do waits[n] := false end;
member = process(p: phone; me: integer); var i, nr: integer;
begin for i := 1 to 5 do begin p.pick_up(me, nr); display(nr); p.hang_up end end;
var p: phone; m: array [1..5] of member;
begin init p, m[1](p,1), m[2](p,2), m[3](p,3), m[4](p,4), m[5](p,5) end.
