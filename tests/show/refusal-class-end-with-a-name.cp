type fork = monitor;
  var taken: boolean;
  procedure entry take;
  begin
    taken := true
  end take;
begin taken := false end;
var f: fork;
begin init f; f.take end.
