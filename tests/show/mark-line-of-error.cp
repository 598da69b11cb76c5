"A second waiter. Two watchers wait for an event in one queue; the program causes
 the event.

 Options: --choices 12

 Look for: 'run-error queue-in-use', with the number of the process and the line
 of the delay. A queue holds one process. Where the event comes before the second
 watcher all goes well, in 3,090 of 3,107 schedules, so a test may well miss it.
 An array of queues, one for each watcher, mends it."
type
event = monitor;
  var happened: boolean; place: queue;
  procedure entry await;
  begin if not happened then delay(place) end;
  procedure entry cause;
  begin happened := true; continue(place) end;
begin happened := false end;

watcher = process(e: event);
begin e.await; display(1) end;

var e: event; a, b: watcher;
begin
  init e, a(e), b(e);
  e.cause
end.
