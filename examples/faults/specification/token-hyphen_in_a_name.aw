role front-desk
