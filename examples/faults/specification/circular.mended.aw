role desk
con ok 0
sort top desk 0 0
sort step desk 1 1
start top
rule loop : top()<> = step(y)<y>
rule pass : step(x)<ok>
