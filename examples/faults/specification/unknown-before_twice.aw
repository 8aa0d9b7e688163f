role desk
rule same : call(x, x)<>
