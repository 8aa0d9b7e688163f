role desk
con message 2
sort day desk 0 0
sort note desk 1 0
start day
rule take_note {who, about} : day()<> = note(message(who, about))<>
rule finish {outcome} : note(x)<>
schedule
start day 20240311
choose day#20240311 take_note {"Ada", "wants to move her appointment"}
