type p = (n: integer);
begin end;
begin end.
