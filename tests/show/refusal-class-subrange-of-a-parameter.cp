procedure p(x: 0..9);
begin display(x) end;
begin p(1) end.
