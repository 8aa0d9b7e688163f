role front
role assessor
role payments
con damage 3
con account 1
con repairable 1
con destroyed 0
con granted 1
con denied 1
con paid 2
con unpaid 0
con letter 2
sort claim front 0 1
sort assessment assessor 1 1
sort survey assessor 1 1
sort decision assessor 2 1
sort payment payments 2 1
start claim
offer assessment
offer payment
use front assessment
use front payment
rule open_claim {policy, what, asked, number} : claim()<letter(v, p)> = assessment(damage(policy, what, asked))<v> ; payment(account(number), v)<p>
rule grant {amount} : assessment(damage(policy, what, asked))<granted(amount)>
rule deny {why} : assessment(x)<denied(why)>
rule inspect : assessment(damage(policy, what, asked))<v> = survey(what)<found> ; decision(asked, found)<v>
rule find_repairable {cost} : survey(what)<repairable(cost)>
rule find_destroyed : survey(what)<destroyed>
rule pay_repair : decision(asked, repairable(cost))<granted(cost)>
rule pay_all : decision(asked, destroyed)<granted(asked)>
rule pay : payment(account(number), granted(amount))<paid(number, amount)>
rule file_away : payment(account(number), denied(why))<unpaid>
schedule
start claim 501
choose claim#501 open_claim {88012, "storm, roof", 12000, "DK50 0040"}
choose claim#501/open_claim.2 pay
choose claim#501/open_claim.1 grant {9000}
choose claim#501/open_claim.2 file_away
choose claim#501/open_claim.2 pay
