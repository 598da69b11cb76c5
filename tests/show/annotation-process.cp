type
  m = monitor;
    var n: integer;
    function entry next: integer; begin n := n + 1; next := n end;
  begin n := 0 end;
  p = process(b: m; first: integer);
    var x: integer;
  begin
    "(* assert first > 0 *)"
    x := b.next;
    "(* assert (x = first) and (first < 3) *)"
  end;
var b: m; a, c: p;
begin init b, a(b, 1), c(b, 2) end.
