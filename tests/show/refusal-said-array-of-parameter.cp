procedure fill(var a: array [1..5] of integer);
begin end;
begin end.
