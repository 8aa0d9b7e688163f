role desk
sort task desk 0 0
start task
start task
