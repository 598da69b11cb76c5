type c = class; begin end; var k: c; begin init k end.
