role desk
