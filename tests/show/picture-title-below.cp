
  
"A comment that is closed; below two lines" var x: integer;
begin display(1) end. "And another one."
