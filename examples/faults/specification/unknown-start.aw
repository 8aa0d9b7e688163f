start task
