type k = (u, v);
var x: k;
begin case 1 of foo: x := u end end.