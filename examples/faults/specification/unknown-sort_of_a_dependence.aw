role desk
con memo 1
sort task desk 0 1
sort call desk 1 1
depends letter 1 1
