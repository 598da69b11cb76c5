procedure f; begin cycle end end; begin end.
