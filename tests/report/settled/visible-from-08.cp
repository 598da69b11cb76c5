type range = 1..5;
  mon = monitor
    procedure entry range(x: range);
    begin display(x) end;
  begin end;
var m: mon;
begin
  init m;
  m.range(7)
end.
