type m = monitor; var x: set of queue; begin end; begin end.
