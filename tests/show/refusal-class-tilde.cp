var busy: boolean;
begin if ~busy then display(1) end.
