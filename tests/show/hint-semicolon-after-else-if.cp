"The if at the end of an else, within the loop of a cycle, with an assertion before it."
var n: integer;
begin
  n := 0;
  repeat
    "(* assert n >= 0 *)"
    if n = 1 then display(1) else
      if n = 2 then ;
    display(2);
    n := n + 1
  until n > 3
end.
