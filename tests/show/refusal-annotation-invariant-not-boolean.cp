type
m = monitor;
  const c = 3;
  
  var n: integer;
  "(* invariant n *)"
  procedure entry go;
  begin
    n := n + 1
  end;
  function entry f: integer; begin f := 1;  end;
  function g: integer; begin g := 1 end;
  
begin n := 0  end;
p = process; var x: integer; 
begin x := 1 end;
var b: m; 
begin
  init b;
  b.go
end.
