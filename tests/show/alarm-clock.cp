"An alarm clock. Two sleepers set it to the times 1 and 2; the program is the
 ticks of the clock, of which there are two. Who wakes displays two digits: the
 time that it set, and the time that the clock shows.

 Options: --choices 16

 Look for: three outcomes, all finished. 11 and 22 are sleepers who wake in time;
 12 is one that came late, at time 2, and doesn't sleep at all. There is no 21:
 nobody wakes too early. A queue holds one process, so each time has a queue of
 its own."
const last = 2;
type
time = 0..last;
alarm_clock = monitor;
  var now: time; bed: array [1..last] of queue;
  procedure entry sleep(till: time);
  begin
    if now < till then delay(bed[till]);
    display(10 * till + now)
  end;
  procedure entry tick;
  begin now := now + 1; continue(bed[now]) end;
begin now := 0 end;

sleeper = process(c: alarm_clock; till: time);
begin c.sleep(till) end;

var c: alarm_clock; s: array [1..last] of sleeper;
begin init c, s[1](c, 1), s[2](c, 2); c.tick; c.tick end.
