var x: boolean;
begin x : not x end.
