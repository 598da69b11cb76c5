const c = -
  x;
begin end.
