type p = process(n: integer);
begin delay(n) end;
begin end.
