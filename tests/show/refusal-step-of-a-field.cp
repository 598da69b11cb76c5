type t = record f: integer end;
var r: t;
begin
  r.f += 1
end.
