const n = 3;
idx = 1..n;
begin end.
