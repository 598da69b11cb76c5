type c = class; procedure entry go; begin end; begin end; var k: c; begin init k; k.go end.
