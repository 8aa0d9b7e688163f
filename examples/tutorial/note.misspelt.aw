role desk
con message 2
sort day desk 0 0
sort note desk 1 0
start day
rule take_note {who, about} : day()<> = note(mesage(who, about))<>
rule finish {outcome} : note(x)<>
