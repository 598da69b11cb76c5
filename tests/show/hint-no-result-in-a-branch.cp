"A result that is set in one branch, in a loop or as the variable of a for, in letters of any case."
function one(n: integer): integer;
begin if n > 1 then begin repeat ONE := n until true end end;
function two(n: integer): integer;
begin for two := 1 to n do display(n) end;
function three(n: integer): integer;
begin case n of 1: three := 1; 2: end end;
begin display(one(3) + two(2) + three(1)) end.
