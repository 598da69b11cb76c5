const n = 3;
t = -1..n;
begin end.
