role desk
sort task desk 0 0
use lab task
