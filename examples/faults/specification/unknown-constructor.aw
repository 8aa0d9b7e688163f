role desk
sort call desk 1 0
rule ring : call(memo(x))<>
