type ticker = process; begin cycle display(7) end end;
var t: ticker;
begin init t; cycle display(99) end end.
