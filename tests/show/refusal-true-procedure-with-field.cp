procedure p; begin end; begin p.x end.
