var n: integer;
begin while n =< 3 do n := n + 1 end.
