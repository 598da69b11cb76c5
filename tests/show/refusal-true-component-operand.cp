type m = monitor; begin end; var y: m; b: boolean; begin b := 1 - y = b end.
