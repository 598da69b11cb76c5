procedure p(3); begin end;
begin end.
