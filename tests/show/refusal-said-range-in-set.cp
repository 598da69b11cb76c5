var free: set of 1..5;
begin
  free := [1..5]
end.
