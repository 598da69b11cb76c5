var größe: integer;
begin end.
