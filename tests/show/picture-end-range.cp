"How a run ends."
var x: integer; y: 1..9;
begin y := 5; y := y + 5 end.
