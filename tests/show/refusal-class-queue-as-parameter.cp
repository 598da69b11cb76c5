type m = monitor;
  procedure pause(q: queue); begin delay(q) end;
begin end;
begin end.
