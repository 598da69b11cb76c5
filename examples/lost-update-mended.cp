"The lost update mended. What belongs together is one call of the monitor: nobody
 can come between the reading and the writing inside it.

 Options: --choices 12

 Look for: 'finished output 1 2' is the only outcome. Compare lost-update.cp."
type
account = monitor;
  var balance: integer;
  procedure entry add(x: integer);
  begin balance := balance + x; display(balance) end;
begin balance := 0 end;

adder = process(a: account);
begin a.add(1) end;

var a: account; p: adder;
begin
  init a, p(a);
  a.add(1)
end.
