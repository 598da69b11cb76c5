type m = monitor;
  var n: integer; q: queue;
  function entry get: integer;
  begin if n = 0 then delay(q); n := n - 1; get := n; continue(q) end;
begin n := 0 end;
begin end.
