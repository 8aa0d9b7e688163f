role front
role assessor
role payments
con granted 1
con letter 2
sort claim front 0 1
sort assessment assessor 1 1
sort payment payments 1 1
start claim
offer assessment
offer payment
use front assessment
use front payment
depends payment 1 1
rule grant : assessment(paid)<granted(paid)>
