type one = process; begin display(1) end;
var a, b: one;
begin init(a, b) end.
