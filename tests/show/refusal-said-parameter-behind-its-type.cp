procedure p(integer n);
begin display(n) end;
begin p(1) end.
