begin "(* assert 1 > 2 *)" "(* assert 2 > 3 *)" end.
