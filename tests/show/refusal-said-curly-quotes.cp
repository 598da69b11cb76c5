var c: char;
begin c := ‘a’ end.
