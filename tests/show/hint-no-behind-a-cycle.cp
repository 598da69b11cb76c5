"A cycle in a branch, in an arm, in a loop that may not be begun; an empty statement behind; and a repeat that ends."
type p = process(n: integer);
begin
  if n = 1 then cycle display(1) end;
  case n of 2: cycle display(2) end; 3: end;
  while n = 4 do cycle display(4) end;
  repeat display(5) until true;
  cycle display(6) end;
end;
var a: p;
begin init a(9); display(7) end.
