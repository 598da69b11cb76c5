type worker = process(in: integer);
begin end;
begin end.
