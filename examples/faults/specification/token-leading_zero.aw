con memo 01
