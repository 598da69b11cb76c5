type buffer = monitor;
  var first, count: integer, sender, receiver: queue;
begin first := 0; count := 0 end;
begin end.
