"What is behind the end of a routine or a type is no statement behind its cycle."
type p = process;
  procedure run;
  begin cycle display(1) end end;
begin run end;
var a: p;
procedure go;
begin if true then begin cycle display(2) end end else display(3) end;
begin init a; go end.
