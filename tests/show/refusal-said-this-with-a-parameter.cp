type counter = monitor(n: integer);
var m: integer;
begin this.n := n end;
var c: counter;
begin init c(1) end.
