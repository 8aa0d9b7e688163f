role desk
sort top desk 0 0
sort step desk 1 1
start top
rule swap : top()<> = step(b)<a> ; step(a)<b>
rule pass : step(x)<x>
