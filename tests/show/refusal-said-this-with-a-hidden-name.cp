type m = monitor
var n: integer;
procedure entry p(n: integer); begin this.n := n end;
begin n := 0 end;
begin end.
