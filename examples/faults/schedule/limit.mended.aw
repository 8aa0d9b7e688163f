role desk
con memo 1
sort task desk 0 0
sort call desk 1 0
start task
rule note {t} : task()<> = call(memo(t))<>
rule ring : call(memo(x))<>
schedule
start task 1
choose task#1 note {1}
