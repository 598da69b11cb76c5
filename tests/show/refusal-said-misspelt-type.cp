var n: intger;
begin n := 1 end.
