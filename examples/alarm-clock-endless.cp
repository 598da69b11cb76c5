"An alarm clock that never stops; one sleeper sleeps one tick, the other two.

 Options: --ends

 Look for: 'ends 0', and that both sleepers can come to display their numbers."
const n = 2;
type
who = 1..n;
clock = monitor;
  var rest: array [who] of integer; bed: array [who] of queue;
  procedure entry sleep(me: who; ticks: integer);
    var i: integer;
  begin
    rest[me] := ticks;
    delay(bed[me]);
    for i := 1 to n do if not empty(bed[i]) then if rest[i] = 0 then continue(bed[i])
  end;
  procedure entry tick;
    var i: integer;
  begin
    for i := 1 to n do if rest[i] > 0 then rest[i] := rest[i] - 1;
    for i := 1 to n do if not empty(bed[i]) then if rest[i] = 0 then continue(bed[i])
  end;
begin end;

ticker = process(c: clock);
begin cycle c.tick end end;

sleeper = process(c: clock; me: who);
begin cycle c.sleep(me, me); display(me) end end;

var c: clock; t: ticker; s1, s2: sleeper;
begin init c, t(c), s1(c, 1), s2(c, 2) end.
