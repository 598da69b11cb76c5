"A record in a routine has the name of a component, and its field the name of an entry that waits."
type buffer = monitor;
  var waiting: queue; full: boolean;

  procedure entry get;
  begin
    if not full then delay(waiting);
    full := false
  end;

  procedure entry put;
  begin
    full := true;
    continue(waiting)
  end;

begin full := false end;

counter = monitor(b: buffer);
  procedure entry count;
  type pair = record get, put: integer end;
  var b: pair;
  begin
    b.get := 1;
    b.put := b.get;
    display(b.put)
  end;

begin b.put end;

var b: buffer; c: counter;
begin
  init b, c(b);
  c.count
end.
