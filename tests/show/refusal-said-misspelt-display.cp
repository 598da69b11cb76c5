begin dipslay(1) end.
