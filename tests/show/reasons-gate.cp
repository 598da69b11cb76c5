"A reader waits in a store that it came to through a guard. The writer, who could wake it, is at the gate of the guard."
type store = monitor;
  var full: boolean; ready: queue;
  procedure entry take; begin if not full then delay(ready); full := false end;
  procedure entry put; begin full := true; continue(ready) end;
begin end;
guard = monitor(s: store);
  procedure entry take; begin s.take end;
  procedure entry put; begin s.put end;
begin end;
reader = process(g: guard); begin g.take end;
writer = process(g: guard); begin g.put end;
var s: store; g: guard; r: reader; w: writer;
begin init s, g(s), r(g), w(g) end.
