var x: integer; begin case x of 'a': x := 1 end end.
