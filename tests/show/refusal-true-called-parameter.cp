procedure p(n: integer); begin n(1) end; begin p(1) end.
