"Signal first. A gate that is opened once. The program wakes whoever waits before
 the gate, and opens it after that.

 Options: --choices 8, and with --signals continue, and with --signals wait

 Look for: 'finished output 2 1' in all schedules, under continue alone. Under return
 nothing follows a signal, so the gate is never opened. Under wait who was woken
 finds the gate closed, and waits again for a signal that has been given: this is
 an all-waiting, where it came before the signal."
type
gate = monitor;
  var open: boolean; waiting: queue;
  procedure entry pass;
  begin
    while not open do delay(waiting);
    display(1)
  end;
  procedure entry unlock;
  begin
    continue(waiting);
    open := true;
    display(2)
  end;
begin open := false end;

walker = process(g: gate);
begin g.pass end;

var g: gate; w: walker;
begin
  init g, w(g);
  g.unlock
end.
