const in-line = 3;
begin end.
