var x: record n: integer end; y: record n: integer end;
begin
  x := y
end.
