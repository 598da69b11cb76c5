type m = monitor
procedure entry p(n: var integer); begin n := 1 end;
begin end;
begin end.
