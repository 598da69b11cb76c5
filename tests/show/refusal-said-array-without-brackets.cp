type t = array 1..5 of integer;
begin end.
