role desk
role desk
