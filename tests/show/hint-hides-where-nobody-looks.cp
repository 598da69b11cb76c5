"What is set is never read; and what is read was never set."
type box = monitor;
  var full: boolean; slot: integer;
  procedure entry put(v: integer);
  var slot: integer;
  begin slot := v end;
  procedure entry show;
  var full: boolean;
  begin if full then display(1) end;
begin full := true; slot := 0 end;
var b: box;
begin init b; b.put(3); b.show end.
