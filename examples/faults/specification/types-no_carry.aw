role desk
sort task desk 0 1
type note
rule answer {t} : task()<t>
