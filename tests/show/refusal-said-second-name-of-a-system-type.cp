type w = monitor begin end; u = w;
begin end.
