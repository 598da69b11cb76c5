var n: integer; x: 1..3; begin n := 5; x := n; display(x) end.
