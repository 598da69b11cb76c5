"A barber and two guests. A guest comes, which wakes the barber, and stays until
 its hair is cut. The barber sleeps while nobody is there.

 Options: --merge --choices 26

 Look for: 'all-waiting' alone. When both have gone the barber sleeps for good,
 and that is right. A guest who waits for good would end as 'all-waiting', too:
 './show mark only finished or all-waiting barber' tells one from the other."
type
number = 1..2;
shop = monitor;
  var here, cut: array [number] of boolean; bed: queue; chair: array [number] of queue;
  procedure entry come(me: number);
  begin here[me] := true; continue(bed) end;
  procedure entry stay(me: number);
  begin if not cut[me] then delay(chair[me]) end;
  procedure entry call(var who: number);
  begin
    if not (here[1] or here[2]) then delay(bed);
    if here[1] then who := 1 else who := 2;
    here[who] := false
  end;
  procedure entry release(who: number);
  begin cut[who] := true; continue(chair[who]) end;
begin
  here[1] := false; here[2] := false; cut[1] := false; cut[2] := false
end;

barber = process(s: shop);
  var who: number;
begin cycle s.call(who); s.release(who) end end;

guest = process(s: shop; me: number);
begin s.come(me); s.stay(me) end;

var s: shop; b: barber; guests: array [number] of guest;
begin
  init s, b(s), guests[1](s, 1), guests[2](s, 2)
end.
