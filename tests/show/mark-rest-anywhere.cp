begin display(1); display(66); display(2) end.
