function f(a: integer): set of 1..5;
begin end;
begin end.
