type
  color = (red, green);
  k = class(limit: integer);
    var s: set of char;
    "(* invariant not ('b' in s) and (limit >= 0) *)"
    procedure entry add(c: char); begin s := s or ['b', c] end;
  begin s := [] end;
  m = monitor;
    var a: array [1..2] of boolean; r: record x, y: integer end; q: array [1..2] of queue; c: color; n: integer; inner: k;
    "(* invariant (a[n + 1] or (c = red)) and empty(q[1]) and (r.x + r.y < 5) *)"
    procedure entry go(var v: integer);
      var w: integer;
    begin
      w := v;
      "(* assert (v > 3) and (w < 3) or (n > 0)  *)"
      v := 7;
      c := green
    end;
    function entry f: integer; begin f := 1; c := green end;
    procedure entry both; begin inner.add('a') end;
  begin init inner(3); n := 0; a[1] := false; c := red end;
var b: m; z, i: integer; xs: array [1..3] of integer;
begin
  init b;
  xs[2] := 5;
  i := 2;
  b.go(xs[i])
end.
