"Cigarette smokers. The program is the agent: twice it says which thing is
 missing, and the smoker who has that thing smokes. Each smoker waits in a queue of its own.

 Options: --merge --choices 22

 Look for: one outcome, 'all-waiting output 2 1'. Smokers 2 and 1 smoke, in this
 order, and smoker 3 waits for good. That is right: its thing is never the missing one."
type
thing = 1..3;
table = monitor;
  var missing: 0..3; turn: array [thing] of queue; agent: queue;
  procedure entry put(what: thing);
  begin missing := what; continue(turn[what]) end;
  procedure entry wait_smoked;
  begin if missing <> 0 then delay(agent) end;
  procedure entry take(me: thing);
  begin
    if missing <> me then delay(turn[me]);
    missing := 0;
    display(me);
    continue(agent)
  end;
begin missing := 0 end;

smoker = process(t: table; me: thing);
begin t.take(me) end;

var t: table; s: array [thing] of smoker;
begin
  init t, s[1](t, 1), s[2](t, 2), s[3](t, 3);
  t.put(2); t.wait_smoked;
  t.put(1); t.wait_smoked
end.
