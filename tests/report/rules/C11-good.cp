type m = monitor; var q: queue; begin end; begin end.
