int x;
begin x := 4; display(x) end.
