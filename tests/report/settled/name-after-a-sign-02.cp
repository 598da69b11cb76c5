type t = integer;
const c = -
  t;
begin end.
