procedure f; begin end; begin end.
