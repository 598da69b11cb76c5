type one = process[n: integer];
begin display(n) end;
var o: one;
begin init o(1) end.
