begin display "x" end.
