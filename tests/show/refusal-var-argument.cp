type color = (red, green); const k = 1; var x: integer; c: char; s: set of char; procedure f(n: integer; var k: integer); begin k := n end; begin f(1, k) end.
