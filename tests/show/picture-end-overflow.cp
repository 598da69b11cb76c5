"How a run ends."
var x: integer; y: 1..9;
begin x := 32767; x := x + 1 end.
