type buffer = monitor; procedure entry put(x: integer); begin end; begin end; var b: buffer;
begin init b; buffer.put(3) end.
