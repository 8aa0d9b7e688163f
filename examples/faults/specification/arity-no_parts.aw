role desk
con memo 1
sort task desk 0 1
rule note : task()<memo>
