"Two displays

 Options: none"
begin display(1); display(2) end.
