role desk
sort task desk 0 0
sort call desk 1 0
rule note : task()<> = call()<>
