"Who is let in. A number begins as 3; one process adds 1 to it, one doubles it,
 the program shows it, each by a call of the same monitor, which displays the
 number.

 Options: --choices 12 --gates any

 Look for: six outcomes, one for each order of the three calls. Take '3 4 8' and
 '3 6 7': while the program is inside, both others may come to the gate, and then
 the answer depends on who of them is let in. With --gates any that is a choice
 of its own: after --schedule 0.0.1.2 the trace says 'wants 1 2', the two that
 stand in the line, and 0.0.1.2.1 and 0.0.1.2.2 go on differently. With --gates
 first process 1, which came first, is inside already, and the same schedule says
 'wants 0 1'."
type
number = monitor;
  var value: integer;
  procedure entry show;
  begin display(value) end;
  procedure entry add_one;
  begin value := value + 1; display(value) end;
  procedure entry double;
  begin value := 2 * value; display(value) end;
begin value := 3 end;

adder = process(n: number);
begin n.add_one end;

doubler = process(n: number);
begin n.double end;

var n: number; a: adder; d: doubler;
begin init n, a(n), d(n); n.show end.
