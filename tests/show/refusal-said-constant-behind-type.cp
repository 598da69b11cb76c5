type t = 1..3;
n = 3;
begin end.
