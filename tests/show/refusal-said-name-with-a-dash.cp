var total-sum: integer;
begin end.
