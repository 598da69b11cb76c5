"The sum goes into a variable of the same kind; a truth value is displayed as false."
type colour = (red, green);
var n: integer;
function sum(a, b: integer): integer;
var result: integer;
begin result := a + b end;
function is_small(a: integer): boolean;
begin if a < 10 then display(a) end;
function next(c: colour): colour;
begin if c = red then n := 1 end;
begin
  n := sum(2, 3);
  display(n); display(is_small(n)); display(next(green))
end.
