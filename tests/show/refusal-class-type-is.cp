type person is record age: integer end;
begin end.
