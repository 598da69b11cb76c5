type color = (red, green); const k = 1; var x: integer; begin red := green end.
