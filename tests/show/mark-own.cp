"Two processes, each of which displays its number. Options: --choices 5
 Look for: both orders. 0.0.1.1 and 0.0.2.1.1 are the first schedules of each."
type p = process(n: integer);
begin display(n) end;

var a, b: p;
begin init a(1), b(2) end.
"(* expect never shown 1 *)"
