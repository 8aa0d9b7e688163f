role clinic
role lab
con order 2
con value 2
con report 2
con glucose 0
sort visit clinic 0 1
sort test lab 1 1
start visit
offer test
use clinic test
rule admit {who, what} : visit()<report(who, r)> = test(order(what, who))<r>
rule measure {number} : test(order(what, who))<value(what, number)>
schedule
start visit 1
choose visit#1 admit {"Ada", glucose}
choose visit#1/admit.1 measure {94}
deliver 1
deliver 0
deliver 0
list lab
choose visit#1/admit.1 measure {94}
settle
list lab
choose visit#1/admit.1 measure {94}
list clinic
settle
