procedure p();
begin display(1) end;
begin p end.
