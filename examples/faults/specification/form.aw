con memo
