con memo -1
