procedure p;
begin
  cycle
    begin
      display(1)
  end
end;
var x: integer;
begin p end.
