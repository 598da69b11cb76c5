var n: integer, done: boolean;
begin end.
