type p = monitor; begin end; r = process(x: p); begin end; begin end.
