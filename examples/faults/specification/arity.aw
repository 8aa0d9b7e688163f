role desk
con memo 1
sort task desk 0 1
rule note {a, b} : task()<memo(a, b)>
