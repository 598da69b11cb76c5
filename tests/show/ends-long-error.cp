"Two clerks count on and on: one of them up to what his field can hold, the
 other up to what he takes to be the end."
type
teller = process;
var n: 0..104;
begin
  n := 0;
  cycle n := n + 1; display(0) end
end;

counter = process;
var n: integer;
begin
  n := 0;
  cycle n := n + 1; "(* assert n < 105 *)" display(0) end
end;

var a: teller; b: counter;
begin init a, b end.
