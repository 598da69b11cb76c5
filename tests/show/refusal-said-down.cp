type w = process(s: integer);
begin down(s); display(1); up(s) end;
begin end.
