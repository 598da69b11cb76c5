procedure p; begin end; begin p.x(1) end.
