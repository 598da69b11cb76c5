type
fork = monitor; begin end;
table = array [0..2] of fork;
phil = process;
  procedure grab(forks: table); begin end;
begin end;
begin end.
