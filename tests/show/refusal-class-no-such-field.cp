type
person = record name: char; years: integer end;
registry = monitor;
  var p: person;
  procedure entry note(x: integer);
  begin p.age := x; p.name := 'x' end;
begin p.years := 0 end;
var r: registry;
begin init r; r.note(40) end.
