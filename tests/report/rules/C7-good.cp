procedure f(a: integer); begin end; begin f(1) end.
