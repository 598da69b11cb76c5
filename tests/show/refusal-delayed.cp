type m = monitor; var q: queue; procedure entry p(n: integer); begin delay(n) end; begin end; var x: m; begin init x; x.p(true) end.
