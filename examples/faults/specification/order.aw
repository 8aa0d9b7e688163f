con memo 1
role desk
