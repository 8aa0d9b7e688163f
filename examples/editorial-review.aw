% A journal: the author submits, two reviewers judge, the editor decides, and
% the author may be asked for a revision, which is judged anew.
%
% A role is one workspace with one user, so two reviewers are two roles. Each
% has a sort of its own, and neither sees the other's review.

role author
role editor
role first_reviewer
role second_reviewer

% paper: title and text.
con paper 2
% A reviewer's judgement: sound or doubtful, and a remark.
con judgement 2
con sound 0
con doubtful 0
% remarks: what the two reviewers wrote, as the author gets to see it.
con remarks 2
% The decision: the accepted paper, or a reason.
con accepted 1
con rejected 1
% letter: the title under which the paper came in, and the decision.
con letter 2

% The author begins the case. The result is the letter.
sort submission author 0 1
% A revision inherits the paper and the remarks. Its result is a new paper.
sort revision author 2 1
% Handling inherits a paper and gives a decision. It is offered to the author,
% and comes up again for each revised paper.
sort handling editor 1 1
% A decision inherits the paper and both judgements. It is the editor's own.
sort decision editor 3 1
% A review inherits the paper and gives a judgement.
sort first_review first_reviewer 1 1
sort second_review second_reviewer 1 1

start submission

offer revision
offer handling
offer first_review
offer second_review
use author handling
use editor revision
use editor first_review
use editor second_review

% The author's form: title and text.
rule submit {title, text} : submission()<letter(title, d)> = handling(paper(title, text))<d>

% The author revises. The title stays, the text is entered anew. The remarks are
% a variable: the author sees them beside the form.
rule revise {text} : revision(paper(title, old), r)<paper(title, text)>

% The editor may refuse at once.
rule turn_away {why} : handling(p)<rejected(why)>

% Or send the paper out. The decision is a third subtask, which inherits what
% the first two give.
rule send_out : handling(p)<d> = first_review(p)<a> ; second_review(p)<b> ; decision(p, a, b)<d>

% The reviewers' forms. Each has two rules, not one with a field for the
% judgement: a field could be filled with anything. The pattern asks for a
% paper, so that a revised one is reviewed only when it is there.
rule first_approves {remark} : first_review(paper(title, text))<judgement(sound, remark)>
rule first_doubts {remark} : first_review(paper(title, text))<judgement(doubtful, remark)>
rule second_approves {remark} : second_review(paper(title, text))<judgement(sound, remark)>
rule second_doubts {remark} : second_review(paper(title, text))<judgement(doubtful, remark)>

% The editor decides. Acceptance needs two good reviews, rejection two bad ones.
rule accept : decision(p, judgement(sound, a), judgement(sound, b))<accepted(p)>
rule reject {why} : decision(p, judgement(doubtful, a), judgement(doubtful, b))<rejected(why)>

% A revision may be asked for whatever the judgements x and y are. The patterns
% still ask for both of them, so this too waits until both reviews are in. The
% author gets the remarks alone. The new paper q is handled like the first, and
% what becomes of it is the decision.
rule ask_revision : decision(p, judgement(x, a), judgement(y, b))<d> = revision(p, remarks(a, b))<q> ; handling(q)<d>

schedule
start submission 7
choose submission#7 submit {"On trees", "first draft"}
settle
choose submission#7/submit.1 send_out
settle

% The reviewers work apart, and disagree.
choose submission#7/submit.1/send_out.1 first_approves {"short and clear"}
choose submission#7/submit.1/send_out.2 second_doubts {"a proof is missing"}
settle

% Neither acceptance nor rejection fits. The editor asks for a revision.
list editor
choose submission#7/submit.1/send_out.3 ask_revision
settle
choose submission#7/submit.1/send_out.3/ask_revision.1 revise {"second draft, with proof"}
settle

% The second round, on the revised paper.
choose submission#7/submit.1/send_out.3/ask_revision.2 send_out
settle
choose submission#7/submit.1/send_out.3/ask_revision.2/send_out.1 first_approves {"as before"}
choose submission#7/submit.1/send_out.3/ask_revision.2/send_out.2 second_approves {"convinced"}
settle
choose submission#7/submit.1/send_out.3/ask_revision.2/send_out.3 accept
settle
