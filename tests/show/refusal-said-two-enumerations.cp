type colour = (red, green); fruit = (apple, pear);
var c: colour; f: fruit;
begin
  c := red; f := pear;
  if c = f then display(1)
end.
