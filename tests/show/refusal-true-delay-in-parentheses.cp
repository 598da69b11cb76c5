type m = monitor; var q: queue; procedure entry p; begin delay((q)) end; begin end; begin end.
