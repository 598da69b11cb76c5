type box = monitor;
  var n: integer;
  procedure entry put(x: integer);
  begin
    if n = 0 then display(0)
    else
      display(x);
      n := x
    end;
    n := n + 1
  end;
begin n := 0 end;
var b: box;
begin init b; b.put(1) end.
