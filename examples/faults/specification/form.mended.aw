con memo 1
