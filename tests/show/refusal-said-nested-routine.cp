procedure outer;
  procedure inner;
  begin display(1) end;
begin inner end;
begin outer end.
