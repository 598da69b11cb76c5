type l = monitor; begin end; p = process; begin l.acquire; .release end; begin end.
