role desk
sort call desk 2 0
rule same : call(x, y)<>
