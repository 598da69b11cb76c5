begin init boolean[0] end.
