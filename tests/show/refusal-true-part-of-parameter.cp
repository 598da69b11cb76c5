type r = record f: integer end; procedure p(y: r); begin y.f := 1 end; begin end.
