"A procedure has no result, and what is named as a function of another type sets its own."
type a = class;
  function entry f: integer;
  begin f := 1 end;
  procedure entry g;
  begin end;
begin end;
b = class(x: a);
  function entry f: integer;
  begin f := x.f + 1 end;
begin end;
var x: a; y: b;
begin init x, y(x); x.g; display(y.f) end.
