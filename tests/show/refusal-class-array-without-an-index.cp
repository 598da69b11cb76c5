type fork = monitor; procedure entry take; begin end; begin end;
var forks: array [1..2] of fork;
begin init forks[1], forks[2]; forks.take end.
