% A clinic sends a sample to a laboratory and gets a finding back.
%
% Two roles that ask each other for work: the clinic orders tests, and the
% laboratory asks the clinic for a new sample where the first is spoiled.

role clinic
role lab

% What values are built of.
% order: what to measure, and the sample.
con order 2
% tube: a sample, by the number on its label.
con tube 1
% redraw: what is to be measured, and why a new sample is needed.
con redraw 2
% value: what was measured, and the number.
con value 2
% refused: why the laboratory measures nothing.
con refused 1
% report: the patient, and the finding.
con report 2
% no_test: the finding of a visit without a test.
con no_test 0
% What can be measured. Constructors without parts make the choices of a list.
con glucose 0
con haemoglobin 0

% A visit begins a case, so it inherits nothing. Its result is the report.
sort visit clinic 0 1
% A sample inherits the reason for which it is drawn. Its result is the tube.
sort sample clinic 1 1
% A test inherits the order. Its result is the finding.
sort test lab 1 1

start visit

% Each side offers one kind of task and uses the other's.
offer sample
offer test
use clinic test
use lab sample

% The form of a visit has three fields. The finding r is not there yet when the
% form is filled in: it is the subtask's result, and stands in the report as a
% gap until the laboratory has filled it.
rule admit {who, label, what} : visit()<report(who, r)> = test(order(what, tube(label)))<r>

% A visit may also end without a test.
rule send_home {who} : visit()<report(who, no_test)>

% A new sample. The clinic sees what for and why, and enters the new label.
rule draw {label} : sample(redraw(what, why))<tube(label)>

% The laboratory measures. The pattern asks for a tube: the rule can be chosen
% only once the sample is known. What was ordered goes into the finding.
rule measure {number} : test(order(what, tube(label)))<value(what, number)>

% The sample is spoiled: the clinic draws a new one (first subtask), and the
% test is done again on it (second subtask). s may be anything, so this can be
% done more than once. The final finding is that of the second subtask.
rule spoiled {why} : test(order(what, s))<r> = sample(redraw(what, why))<t> ; test(order(what, t))<r>

% The laboratory can't do it. The variable x takes any order.
rule reject {why} : test(x)<refused(why)>

schedule
% The clinic admits Ada and Bob.
start visit 1
start visit 2
choose visit#1 admit {"Ada", 4711, haemoglobin}
choose visit#2 admit {"Bob", 4712, glucose}
settle

% Ada's sample is clotted. Bob's is fine.
choose visit#1/admit.1 spoiled {"clotted"}
choose visit#2/admit.1 measure {94}
settle

% What the laboratory can do now: Ada's second test waits for the new tube.
list lab

% The clinic draws it, and the laboratory measures.
choose visit#1/admit.1/spoiled.1 draw {4713}
settle
choose visit#1/admit.1/spoiled.2 measure {132}
settle
