role desk
sort task desk 0 0
rule note {a, b, c, d, e, f, g, h, i} : task()<>
