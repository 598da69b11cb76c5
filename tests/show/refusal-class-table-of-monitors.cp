type
fork = monitor;
  var taken: boolean;
  procedure entry take;
  begin taken := true end;
begin taken := false end;
table = array [0..2] of fork;
phil = process(forks: table; me: integer);
begin forks[me].take end;
var f: table; p: phil;
begin init f[0], f[1], f[2], p(f, 0) end.
