type small = 1..9; var x: integer; y: 1..9;
procedure p(var m, n: small); begin m := n end; begin p(y, x) end.
