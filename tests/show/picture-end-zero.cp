"How a run ends."
var x: integer; y: 1..9;
begin x := 1 div x end.
