roles desk
