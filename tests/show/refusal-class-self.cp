type counter = monitor;
  var n: integer;
  procedure entry add; begin self.n := self.n + 1 end;
begin n := 0 end;
var c: counter;
begin init c; c.add end.
