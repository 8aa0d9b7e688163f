role desk
con memo 2
sort task desk 0 1
rule note {a, b} : task()<memo(a, b)>
