role desk
con message 2
con urgent 1
con passed 2
sort day desk 0 0
sort note desk 1 0
start day
rule take_note {who, about} : day()<> = note(message(who, about))<> ; day()<>
rule close : day()<>
rule finish {outcome} : note(x)<>
rule press : note(message(who, about))<> = note(urgent(message(who, about)))<>
rule hand_over {colleague} : note(urgent(m))<> = note(passed(m, colleague))<>
schedule
start day 1
choose day#1 take_note {"Ada", "wants to move her appointment"}
list desk
choose day#1/take_note.1 hand_over {"Eve"}
choose day#1/take_note.1 finish
choose day#1/take_note.1 close
choose day#1/take_note.1/press.1 finish {"moved"}
choose day#1/take_note.1 press
choose day#1/take_note.1 finish {"moved"}
start day 1
list desk
settle
