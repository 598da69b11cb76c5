type buffer monitor;
begin end;
begin end.
