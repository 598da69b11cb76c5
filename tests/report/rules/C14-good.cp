type c = monitor; begin end; p = process(x: c); begin end; var k: c; a: p; begin init k, a(k) end.
