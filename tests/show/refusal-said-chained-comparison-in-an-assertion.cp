var a: integer;
begin "(* assert 0 <= a <= 3 *)" a := 1 end.
