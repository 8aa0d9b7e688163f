% The claim of insurance-claim.aw with types: what stands at a wrong place is
% refused before the form is used.
%
% A claim goes through three offices: front desk, assessor, payments.
%
% The front desk opens the claim and both subtasks at once. Payments sees its
% task from the beginning, but can act only when the assessor's verdict is there.

role front
role assessor
role payments

% damage: the policy's number, what happened, and the amount asked for.
con damage 3
% account: where money goes.
con account 1
% What a surveyor finds: it can be repaired at a cost, or it is destroyed.
con repairable 1
con destroyed 0
% The verdict: an amount is granted, or a reason is given.
con granted 1
con denied 1
% What payments did: account and amount, or nothing.
con paid 2
con unpaid 0
% The letter to the customer: verdict and payment.
con letter 2

% What a customer asks for. It ends with the letter to the customer.
sort claim front 0 1
% Look at the damage, and decide whether something is paid, and how much.
sort assessment assessor 1 1
% Have a look at the damage, and say what you found. Surveys and decisions are
% the assessor's own tasks: no other office can ask for them.
sort survey assessor 1 1
% What the survey found decides how much is paid.
sort decision assessor 2 1
% Pay what was granted, or file the claim away where it was denied.
sort payment payments 2 1

start claim

offer assessment
offer payment
use front assessment
use front payment

% Which values go where: a finding is no verdict, and an amount is no text.
type damage
type account
type finding
type verdict
type payment
type letter
shape damage (num, text, num) damage
shape account (text) account
shape repairable (num) finding
shape destroyed () finding
shape granted (num) verdict
shape denied (text) verdict
shape paid (text, num) payment
shape unpaid () payment
shape letter (verdict, payment) letter
carry claim ()<letter>
carry assessment (damage)<verdict>
carry survey (text)<finding>
carry decision (num, finding)<verdict>
carry payment (account, verdict)<payment>

% The customer's form: the number of the policy, what happened, how much is asked
% for, and where the money goes. The assessor and payments are told at once, and
% what they decide and pay ends in the letter.
rule open_claim {policy, what, asked, iban} : claim()<letter(v, p)> = assessment(damage(policy, what, asked))<v> ; payment(account(iban), v)<p>

% Small claims: the assessor grants an amount without a survey.
rule grant {amount} : assessment(damage(policy, what, asked))<granted(amount)>

% Nothing is paid; the customer is told why.
rule deny {why} : assessment(x)<denied(why)>

% Large claims: somebody has a look first. The surveyor is told what happened,
% but not how much is asked; the decision is told how much is asked, and what
% was found.
rule inspect : assessment(damage(policy, what, asked))<v> = survey(what)<found> ; decision(asked, found)<v>

% It can be repaired: enter what that costs.
rule find_repairable {cost} : survey(what)<repairable(cost)>
rule find_destroyed : survey(what)<destroyed>

% The finding decides which of the two can be done. Nothing is entered, as the
% amounts are known: what the repair costs, or all that was asked for.
rule pay_repair : decision(asked, repairable(cost))<granted(cost)>
rule pay_all : decision(asked, destroyed)<granted(asked)>

% Pay what the assessor granted. Until the verdict is here nothing can be done.
rule pay : payment(account(iban), granted(amount))<paid(iban, amount)>
rule file_away : payment(account(iban), denied(why))<unpaid>

schedule
% A large claim.
start claim 501
choose claim#501 open_claim {88012, "storm, roof", 12000, "DK50 0040"}
settle
choose claim#501/open_claim.1 inspect

% Payments already sees the task; both rules wait for the decision.
settle
list payments

choose claim#501/open_claim.1/inspect.1 find_repairable {7400}
choose claim#501/open_claim.1/inspect.2 pay_repair
settle
choose claim#501/open_claim.2 pay
settle

% A claim that is refused.
start claim 502
choose claim#502 open_claim {88012, "scratched door", 300, "DK50 0040"}
settle
choose claim#502/open_claim.1 deny {"below the excess"}
settle
choose claim#502/open_claim.2 file_away
settle
