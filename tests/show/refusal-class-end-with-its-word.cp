type ticker = process;
  var i: integer;
begin
  for i := 1 to 3 do begin
    display(i)
  end for
end;
var t: ticker;
begin init t end.
