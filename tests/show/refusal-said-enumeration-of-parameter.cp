type smoker = process(kind: tobacco, paper, matches);
begin display(1) end;
begin end.
