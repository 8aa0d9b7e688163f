role front
role assessor
role payments
con granted 1
con paid 1
con letter 2
sort claim front 0 1
sort assessment assessor 1 1
sort payment payments 1 1
start claim
offer assessment
offer payment
use front assessment
use front payment
free
rule open_claim : claim()<letter(v, p)> = assessment(p)<v> ; payment(v)<p>
rule grant {amount} : assessment(later)<granted(amount)>
rule pay {amount} : payment(granted(y))<paid(amount)>
schedule
start claim 1
choose claim#1 open_claim
choose claim#1/open_claim.1 grant {300}
choose claim#1/open_claim.2 pay {300}
