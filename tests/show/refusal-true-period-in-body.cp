begin .x end.
