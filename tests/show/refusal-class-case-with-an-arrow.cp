type states = (idle, reading, writing);
var state: states;
begin
  case state of
    idle => display(0);
    reading, writing => display(1)
  end
end.
