role desk
con memo 1
con ok 0
sort task desk 0 1
type note
shape memo (text) note
carry task ()<note>
rule answer {t} : task()<memo(t)>
