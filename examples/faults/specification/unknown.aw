sort task desk 0 0
