var a: array [1..3] of integer; begin init a[1] end.
