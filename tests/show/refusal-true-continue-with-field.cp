begin continue.q end.
