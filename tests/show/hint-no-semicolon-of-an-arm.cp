"The semicolon separates arms, or ends a statement that does something; an empty then has an else."
var i, n: integer;
begin
  n := 2;
  for i := 1 to 3 do n := n + i;
  case n of
    1: if i = 1 then ;
    2, 8: ;
    3: display(3)
  end;
  if n = 8 then else display(n);
  if n = 8 then begin end;
  while n > 8 do begin n := n - 1 end;
  display(n)
end.
