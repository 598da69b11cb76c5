var receiver: integer;
begin reciever := 1 end.