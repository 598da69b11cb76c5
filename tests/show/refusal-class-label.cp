type one = process; begin display(1) end;
var o: one;
begin start: init o end.
