const tracks := 10;
begin end.
