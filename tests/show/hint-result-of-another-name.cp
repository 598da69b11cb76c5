"A local variable has the name of the function."
type counter = class;
  var n: integer;
  function entry value: integer;
  var value: integer;
  begin value := n; display(value) end;
begin n := 5 end;
var c: counter;
begin init c; display(c.value) end.
