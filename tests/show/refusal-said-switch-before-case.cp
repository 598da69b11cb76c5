var x: integer;
begin
  switch (x)
    case 1: display(1);
    case 2: display(2)
end.
