"A title that is so long that it has no room in one line of a picture, that breaks at a word into a second one, and that is cut there, at a word again, since a heading has two lines at most, whatever it says in what comes after them"
begin display(1) end.
