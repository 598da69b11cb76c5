var x: integer;
begin
  x := 
