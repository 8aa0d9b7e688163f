role desk
role workshop
con mended 2
sort order desk 0 1
sort repair workshop 1 1
start order
offer repair
use desk repair
rule accept {item} : order()<r> = repair(item)<r>
rule mend {how} : repair(x)<mended(x, how)>
schedule 2
start order 7
choose order#7 accept {"bicycle"}
settle
list workshop
choose order#7/accept.1 mend {"new chain"}
settle
