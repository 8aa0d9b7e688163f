role desk
con memo 1
