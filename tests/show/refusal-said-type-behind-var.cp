var n: integer;
m = monitor begin end;
begin end.
