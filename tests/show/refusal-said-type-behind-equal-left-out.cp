type t = ;
begin end.
