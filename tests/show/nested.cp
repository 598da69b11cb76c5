"Nested monitors that trap a caller. All calls of a slot go through a second
 monitor, the guard, which counts them.

 Options: --choices 10

 Look for: 'all-waiting output -'. Where the receiver comes first, it is delayed
 inside the slot, because nothing is there yet. It gives the slot up then, but not
 the guard; the sender that should wake it waits at the guard's gate. In the
 trace of 1.0, the first such schedule, the last holders are: free, nobody in
 the slot, and 1, the receiver in the guard."
type
slot = monitor;
  var full: boolean; value: integer; receiver: queue;
  procedure entry put(x: integer);
  begin value := x; full := true; continue(receiver) end;
  function entry get: integer;
  begin
    if not full then delay(receiver);
    full := false;
    get := value
  end;
begin full := false end;

guard = monitor(s: slot);
  var calls: integer;
  procedure entry send(x: integer);
  begin calls := calls + 1; s.put(x) end;
  function entry receive: integer;
  begin calls := calls + 1; receive := s.get end;
begin calls := 0 end;

receiver = process(g: guard);
begin display(g.receive) end;

var s: slot; g: guard; r: receiver;
begin init s, g(s), r(g); g.send(7) end.
