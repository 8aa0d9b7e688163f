role desk
sort call desk 1 0
sort ring desk 1 1
depends ring 1 1
carry call (num)<>
