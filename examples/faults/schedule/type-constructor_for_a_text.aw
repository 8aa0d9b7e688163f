role desk
con memo 1
sort task desk 0 1
start task
type note
shape memo (text) note
carry task ()<note>
rule answer {t} : task()<memo(t)>
schedule
start task 1
choose task#1 answer {memo("7")}
