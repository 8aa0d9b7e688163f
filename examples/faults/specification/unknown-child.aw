role desk
sort task desk 0 0
rule note : task()<> = call()<>
