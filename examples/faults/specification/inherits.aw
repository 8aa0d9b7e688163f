role desk
sort task desk 1 0
start task
