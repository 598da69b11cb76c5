function f(n: integer): integer;
begin return (n) mod 3 end;
begin end.
