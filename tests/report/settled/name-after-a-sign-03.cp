const b = true; c = -
  b;
begin end.
