type m = monitor begin end;
c = class
function entry f: m;
begin end;
begin end;
begin end.
