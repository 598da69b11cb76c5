var x: integer; c: char; s: set of char; procedure f(n: integer; var k: integer); begin k := n end; begin f('a', x); f(1, 2) end.
