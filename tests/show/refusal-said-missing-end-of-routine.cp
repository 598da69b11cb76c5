type box = monitor;
  var x: integer;
  procedure entry put(v: integer);
  begin
    if v > 0 then begin
      x := v
    end;
  procedure entry clear;
  begin x := 0 end;
begin x := 0 end;
begin end.
