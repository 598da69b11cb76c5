type m = monitor
var n: integer;
procedure entry q; begin n := 1 end;
procedure entry p; begin self.q end;
begin n := 0 end;
begin end.
