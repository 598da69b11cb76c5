type way = (up down);
begin end.
