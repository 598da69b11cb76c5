type p = process;
begin greet end;
var x: p;
procedure greet;
begin display(1) end;
begin init x end.
