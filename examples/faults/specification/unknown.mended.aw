role desk
sort task desk 0 0
