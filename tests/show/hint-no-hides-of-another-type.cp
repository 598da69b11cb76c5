"A variable of another type, of the program, a field of a record and a parameter of the type are no permanent variables of the routine's type."
type a = class(size: integer);
  var n: integer;
  procedure entry up;
  begin n := n + size end;
begin n := 0 end;
b = class(x: a);
  var r: record n: integer end;
  procedure entry show;
  var n, size: integer;
  begin n := n + 1; size := n; display(size); r.n := n; display(r.n) end;
begin x.up end;
var x: a; y: b; n: integer;
begin n := 2; init x(n), y(x); y.show end.
