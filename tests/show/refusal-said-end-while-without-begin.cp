type p = process
var i: integer;
begin
  while i < 3 do
    display(i);
    i := i + 1;
  end while;
end;
var a: p;
begin init a end.
