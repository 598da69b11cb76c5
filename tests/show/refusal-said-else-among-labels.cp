type lift = monitor;
var floor: integer; way: (up, down);
procedure entry move;
begin
  case way of
    up: floor := floor + 1;
    down: floor := floor - 1;
    else floor := 1
  end
end;
begin floor := 1; way := up end;
begin end.
