"A lost update. Two processes, of which the program is one, add 1 to a balance that
 begins at 0. Each balance that is written is displayed.

 Options: --choices 12

 Look for: 'finished output 1 1'. The monitor makes each call exclusive, but an
 addition is two calls, get and put, and the other process may come between them:
 both read 0, so both write 1. Inside a process nothing is interrupted between two
 calls; it is the calls that others come between. lost-update-mended.cp is the
 mended form."
type
account = monitor;
  var balance: integer;
  function entry get: integer;
  begin get := balance end;
  procedure entry put(x: integer);
  begin balance := x; display(balance) end;
begin balance := 0 end;

adder = process(a: account);
begin a.put(a.get + 1) end;

var a: account; p: adder;
begin
  init a, p(a);
  a.put(a.get + 1)
end.
