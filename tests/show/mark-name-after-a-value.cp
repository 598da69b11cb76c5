type state = (waiting, finished);
var s: state;
begin s := waiting; display(s); s := finished; display(s) end.
