procedure p; begin end; begin p[1] end.
