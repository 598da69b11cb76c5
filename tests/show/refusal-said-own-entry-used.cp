type clock = monitor
procedure entry tick; begin time := time + 1 end;
function entry time: integer; begin time := 1 end;
begin end;
begin end.
