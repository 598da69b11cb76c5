type p = process;
  begin
  end;
var a: p;
begin
  run a
end.
