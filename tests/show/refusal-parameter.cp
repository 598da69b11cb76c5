var x: integer; c: char; s: set of char; procedure f(n: integer; var k: integer); begin n := 1 end; begin f(1, x) end.
