"The cycle is inside of a block, with an assertion before it; an entry procedure that continues never comes to what is behind, either."
type m = monitor;
  var n: integer; q: queue;
  procedure entry go;
  begin
    if n = 0 then delay(q);
    begin
      n := 1;
      "(* assert n = 1 *)"
      cycle n := n + 1; if n > 9 then continue(q) end
    end;
    ;
    n := 0
  end;
begin n := 1 end;
var x: m;
begin init x; x.go end.
