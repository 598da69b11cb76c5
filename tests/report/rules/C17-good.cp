type x = process; begin end; var a: x; begin init a end.
