% A claim goes through three offices: front desk, assessor, payments.
%
% The front desk opens the claim and both subtasks at once. Payments sees its
% task from the beginning, but can act only when the assessor's verdict is there.

role front
role assessor
role payments

% damage: the policy's number, what happened, and the amount asked for.
con damage 3
% account: where money goes.
con account 1
% What a surveyor finds: it can be repaired at a cost, or it is destroyed.
con repairable 1
con destroyed 0
% The verdict: an amount is granted, or a reason is given.
con granted 1
con denied 1
% What payments did: account and amount, or nothing.
con paid 2
con unpaid 0
% The letter to the customer: verdict and payment.
con letter 2

% A claim begins a case. Its result is the letter.
sort claim front 0 1
% An assessment inherits the damage. Its result is the verdict.
sort assessment assessor 1 1
% A survey and a decision are the assessor's own tasks. They are not offered,
% so no other role can ask for them.
sort survey assessor 1 1
% A decision inherits the amount asked for and the surveyor's finding.
sort decision assessor 2 1
% A payment inherits the account and the verdict. Its result is what was done.
sort payment payments 2 1

start claim

offer assessment
offer payment
use front assessment
use front payment

% The customer's form. The verdict v is the result of the first subtask, and
% is handed to the second: results may go sideways, as long as nothing needs
% itself. Both end in the letter.
rule open_claim {policy, what, asked, number} : claim()<letter(v, p)> = assessment(damage(policy, what, asked))<v> ; payment(account(number), v)<p>

% Small claims: the assessor grants an amount without a survey.
rule grant {amount} : assessment(damage(policy, what, asked))<granted(amount)>

% The assessor refuses.
rule deny {why} : assessment(x)<denied(why)>

% Large claims: somebody has a look first. The surveyor is told what happened,
% but not how much is asked; the decision is told how much is asked, and what
% was found.
rule inspect : assessment(damage(policy, what, asked))<v> = survey(what)<found> ; decision(asked, found)<v>

% The surveyor's two forms.
rule find_repairable {cost} : survey(what)<repairable(cost)>
rule find_destroyed : survey(what)<destroyed>

% What follows from the finding. No fields: the amounts are known. There is one
% rule for each finding, and the patterns make sure that only one of them fits.
rule pay_repair : decision(asked, repairable(cost))<granted(cost)>
rule pay_all : decision(asked, destroyed)<granted(asked)>

% Payments acts on the verdict. Until it has arrived both rules wait.
rule pay : payment(account(number), granted(amount))<paid(number, amount)>
rule file_away : payment(account(number), denied(why))<unpaid>

schedule
% A large claim.
start claim 501
choose claim#501 open_claim {88012, "storm, roof", 12000, "DK50 0040"}
settle
choose claim#501/open_claim.1 inspect

% Payments already sees the task; both rules wait for the decision.
settle
list payments

choose claim#501/open_claim.1/inspect.1 find_repairable {7400}
choose claim#501/open_claim.1/inspect.2 pay_repair
settle
choose claim#501/open_claim.2 pay
settle

% A claim that is refused.
start claim 502
choose claim#502 open_claim {88012, "scratched door", 300, "DK50 0040"}
settle
choose claim#502/open_claim.1 deny {"below the excess"}
settle
choose claim#502/open_claim.2 file_away
settle
