"How a run ends."
var x: integer; y: 1..9;
begin case x of 1: display(1) end end.
