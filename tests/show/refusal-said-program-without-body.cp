type p = process;
begin display(1) end;
var a: p;
