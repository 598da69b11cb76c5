"Every process waits, whether the box is full or not."
type box = monitor;
  var full: boolean; ready: queue;
  procedure entry get;
  begin
    if not full then;
    delay(ready)
  end;
  procedure entry put;
  begin
    full := true;
    continue(ready)
  end;
begin full := false end;
var b: box;
begin init b; b.put end.
