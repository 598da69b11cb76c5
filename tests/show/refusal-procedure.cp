var x: integer; function f: integer; begin f := 1 end; procedure g; begin end; begin x := g end.
