role desk
con ok 0
sort task desk 0 0
rule finish {answer} : task()<>
