"A disk whose head goes to the nearest cylinder that is asked for, and users who
 never end.

 Options: --ends

 Look for: 'ends 0'. No schedule comes to an end, so nobody is ever stuck for good
 together with all others; but users of cylinders 1 and 2 can keep the head from
 cylinder 5 as long as they like."
const n = 3;
type
who = 1..n;
cylinder = 1..5;
disk = monitor;
  var busy, upward: boolean; head: cylinder; want: array [who] of cylinder; wait: array [who] of queue;
  procedure entry seek(me: who; c: cylinder);
  begin
    if busy then begin want[me] := c; delay(wait[me]); want[me] := 1 end;
    busy := true; head := c
  end;
  procedure entry release;
    var i, best: integer;
  begin
    busy := false;
    best := 0;
    for i := 1 to n do
      if not empty(wait[i]) then
        if best = 0 then best := i
        else if abs(want[i] - head) < abs(want[best] - head) then best := i;
    if best > 0 then continue(wait[best])
  end;
begin busy := false; upward := true; head := 1 end;

user = process(d: disk; me: who; c: cylinder);
begin cycle d.seek(me, c); d.release end end;

var d: disk; u: array [who] of user;
begin init d, u[1](d, 1, 1), u[2](d, 2, 2), u[3](d, 3, 5) end.
