role desk
sort call desk 1 0
rule ring {x} : call(x)<>
