type
  c = class;
    var n: integer;
    "(* invariant n <= 1 *)"
    procedure entry add; begin n := n + 1 end;
  begin n := 0 end;
  m = monitor;
    var inner: c;
    procedure entry add; begin inner.add end;
  begin init inner end;
var b: m;
begin init b; b.add; b.add end.
