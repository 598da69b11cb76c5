function f: boolean; begin f := 1 end; begin end.
