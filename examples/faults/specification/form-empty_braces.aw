role desk
sort task desk 0 0
rule go {} : task()<>
