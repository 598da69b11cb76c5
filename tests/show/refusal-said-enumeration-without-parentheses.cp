type colour = red, green;
begin end.
