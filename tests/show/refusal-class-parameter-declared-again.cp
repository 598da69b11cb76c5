type
lot = monitor(size: integer);
  var size: integer; full: queue;
  procedure entry enter;
  begin if size = 0 then delay(full); size := size - 1 end;
begin size := 5 end;
var l: lot;
begin init l(5); l.enter end.
