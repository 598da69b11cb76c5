type one = process; begin display(1) end;
var o: one;
procedure main;
begin init o end.
