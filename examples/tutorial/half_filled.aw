role clinic
role lab
con order 2
con tube 1
con redraw 2
con value 2
con refused 1
con report 2
con no_test 0
con glucose 0
con haemoglobin 0
sort visit clinic 0 1
sort sample clinic 1 1
sort test lab 1 1
start visit
offer sample
offer test
use clinic test
use lab sample
rule admit {who, label, what} : visit()<report(who, r)> = test(order(what, tube(label)))<r>
rule send_home {who} : visit()<report(who, no_test)>
rule draw {label} : sample(redraw(what, why))<tube(label)>
rule measure {number} : test(order(what, tube(label)))<value(what, number)>
rule spoiled {why} : test(order(what, s))<r> = sample(redraw(what, why))<t> ; test(order(what, t))<r>
rule reject {why} : test(x)<refused(why)>
schedule
start visit 1
choose visit#1 admit {"Ada", 4711, haemoglobin}
choose visit#1/admit.1 spoiled {"clotted"}
choose visit#1/admit.1/spoiled.2 measure {132}
