role desk
con memo 1
sort task desk 0 1
type note
shape memo (text) note
carry task ()<note>
rule answer : task()<memo(7)>
