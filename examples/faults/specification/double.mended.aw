role desk
role lab
