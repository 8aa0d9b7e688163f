% Notes at a reception.
%
% One role, and no results: the smallest kind of case. Tasks only hand values
% down to their subtasks; nothing comes back up.
%
%     crates/aw_prog/out/aw_prog replay < examples/task-note.aw

% One workspace. Everybody at the reception shares it.
role desk

% What notes are built of.
% message: who called, and what about.
con message 2
% urgent: a message that may not wait until tomorrow.
con urgent 1
% passed: a message, and the colleague who has it now.
con passed 2

% The kinds of task.
% A day inherits nothing, so a case may begin with it.
sort day desk 0 0
% A note inherits one value: what has to be dealt with.
sort note desk 1 0

% Each case is one day; its number may be the date, as 20240311.
start day

% Something comes in. The two parameters are the two fields of the form.
% The day goes on as its own subtask, so any number of notes can follow.
rule take_note {who, about} : day()<> = note(message(who, about))<> ; day()<>

% The end of the day. No fields, no subtasks.
rule close : day()<>

% A message is dealt with. The outcome is a field; it stays with the task.
% The pattern is a variable, so every note can be finished, urgent or not.
rule finish {outcome} : note(x)<>

% Only a plain message can be made urgent: the pattern says so. On a note that
% is urgent already this rule is answered "mismatch 1".
rule press : note(message(who, about))<> = note(urgent(message(who, about)))<>

% Only what is urgent is handed to a colleague. The pattern looks two levels
% deep, and the subtask is told who has it.
rule hand_over {colleague} : note(urgent(m))<> = note(passed(m, colleague))<>

schedule
% Two calls come in, one after the other. The second note hangs below the
% task that keeps the day going, take_note's second subtask.
start day 20240311
choose day#20240311 take_note {"Ada", "wants to move her appointment"}
choose day#20240311/take_note.2 take_note {"Bob", "water in the cellar"}

% The first is finished at once, with a quotation in the outcome.
choose day#20240311/take_note.1 finish {"moved; she says \"thank you\""}

% The second is urgent, goes to a colleague, and is finished there.
choose day#20240311/take_note.2/take_note.1 press
choose day#20240311/take_note.2/take_note.1/press.1 hand_over {"Eve"}
choose day#20240311/take_note.2/take_note.1/press.1/hand_over.1 finish {"plumber came"}

choose day#20240311/take_note.2/take_note.2 close
