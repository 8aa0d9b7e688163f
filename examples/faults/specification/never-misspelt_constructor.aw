role desk
con ok 0
sort task desk 0 1
rule note : task()<okay>
