const k = 3;
begin n : k end.
