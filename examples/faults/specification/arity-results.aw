role desk
sort task desk 0 1
rule note : task()<>
