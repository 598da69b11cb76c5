type colour = enum (red, green);
begin end.
