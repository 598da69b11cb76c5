type r = record f: integer end; var x: r.f; begin end.
