type one = process;
begin display(1) end.
var o: one;
begin init o end.
