#!/usr/bin/env python3
"""Makes the benchmark inputs: inputs.py [DIR]. Each is NAME.txt; cases.tsv lists NAME and words."""
import os, random, sys

DIR = sys.argv[1] if len(sys.argv) > 1 else "bench-data"
LIMIT = 16_777_216
os.makedirs(DIR, exist_ok=True)
cases = []

def put(name, words, *parts):
    text = "".join(parts).encode()
    assert len(text) <= LIMIT, (name, len(text))
    with open(os.path.join(DIR, name + ".txt"), "wb") as f:
        f.write(text)
    cases.append((name, words, len(text)))

def lines(ls):
    return "".join(l + "\n" for l in ls)

S = lines("""role clinic
role lab
con blood 1
con report 2
con found 2
con none 0
sort visit clinic 0 1
sort test lab 1 1
start visit
offer test
use clinic test
rule admit {who} : visit()<report(who, r)> = test(blood(who))<r>
rule analyse {v} : test(blood(w))<found(w, v)>
rule skip : test(x)<none>""".split("\n"))

# 1. Visits whose tests go by post.
def visits(k, end="schedule\n", analyse=False):
    out = [end]
    out += [f'start visit {i}\nchoose visit#{i} admit {{"Ada"}}\n' for i in range(1, k + 1)]
    out.append("settle\n")
    if analyse:
        out += [f'choose visit#{i}/admit.1 analyse {{{i}}}\n' for i in range(1, k + 1)]
        out.append("settle\n")
    return "".join(out)

for k in (1000, 10000, 30000, 100000):
    put(f"visits_{k}", "replay", S, visits(k))
put("visits_analyse_40000", "replay", S, visits(40000, analyse=True))
put("visits_loads_60000", "replay", S, visits(60000, "schedule 2\n", True))

# 2. Deep chains: 250 steps, values threaded down and up.
def chain(roles):
    ls = [f"role r{k}" for k in range(roles)] + ["con c 1", "con p 2", "con z 0"]
    ls += ["sort s r0 0 1"] + [f"sort t{k} r{k} 2 1" for k in range(roles)] + ["start s"]
    if roles > 1:
        ls += [f"offer t{k}" for k in range(roles)]
        ls += [f"use r{k} t{(k + 1) % roles}" for k in range(roles)]
    ls += ["rule g {v} : s()<y> = t0(v, z)<y>"]
    for k in range(roles):
        n = (k + 1) % roles
        ls += [f"rule m{k} : t{k}(x, a)<y> = t{n}(x, c(a))<y>", f"rule e{k} : t{k}(x, a)<p(x, a)>"]
    return lines(ls)

def chain_schedule(roles, n, depth, settle):
    out = ["schedule\n"]
    for i in range(n):
        out.append(f"start s {i}\nchoose s#{i} g {{{i}}}\n")
        at, k = f"s#{i}/g.1", 0
        for _ in range(depth - 1):
            out.append(f"choose {at} m{k}\n")
            at += f"/m{k}.1"
            k = (k + 1) % roles
            if settle:
                out.append("settle\n")
        out.append(f"choose {at} e{k}\n")
    if settle:
        out.append("settle\n")
    return "".join(out)

put("deep_1role_20", "replay", chain(1), chain_schedule(1, 20, 250, False))
put("deep_1role_95", "replay", chain(1), chain_schedule(1, 95, 250, False))
# many cases in turn, one step of each at a time: no shared beginning with the line before
def chain_turns(n, depth):
    out = ["schedule\n"] + [f"start s {i}\nchoose s#{i} g {{{i}}}\n" for i in range(n)]
    at = "/g.1"
    for _ in range(depth - 1):
        out += [f"choose s#{i}{at} m0\n" for i in range(n)]
        at += "/m0.1"
    out += [f"choose s#{i}{at} e0\n" for i in range(n)]
    return "".join(out)
put("deep_turns_95", "replay", chain(1), chain_turns(95, 250))
put("deep_3roles_30", "replay", chain(3), chain_schedule(3, 30, 120, True))

# 3. Wide sharing.
S16 = lines(["role r", "con z 0", "con d 2", "sort s r 0 1", "sort t r 1 1", "start s", "rule go : s()<y> = t(z)<y>", "rule more : t(x)<y> = t(d(x, x))<y>", "rule end : t(x)<x>"])
def sch16(n, count=1):
    out = ["schedule\n"]
    for c in range(1, count + 1):
        out.append(f"start s {c}\nchoose s#{c} go\n")
        at = f"s#{c}/go.1"
        for _ in range(n):
            out.append(f"choose {at} more\n")
            at += "/more.1"
        out.append(f"choose {at} end\n")
    return "".join(out)
put("wide_10x500", "replay", S16, sch16(10, 500))
put("wide_14x30", "replay", S16, sch16(14, 30))
put("wide_18", "replay", S16, sch16(18))
put("wide_40_status6", "replay", S16, sch16(40))

# 4. Many roles passing values along.
def roles(n):
    ls = [f"role r{k}" for k in range(n)] + ["con c 2", "con box 1", "con ok 0", "con done 2"]
    ls += ["sort s r0 0 1"] + [f"sort w{k} r{k} 2 2" for k in range(1, n)] + ["start s"]
    ls += [f"offer w{k}" for k in range(1, n)]
    ls += [f"use r{k} w{k + 1}" for k in range(n - 1)]
    ls += ["rule go {v, t} : s()<done(a, b)> = w1(c(v, ok), box(t))<a, b>"]
    for k in range(1, n):
        if k < n - 1:
            ls.append(f"rule pass{k} {{v}} : w{k}(c(x, y), b)<c(p, v), q> = w{k + 1}(c(b, x), box(y))<p, q>")
        else:
            ls.append(f"rule end{k} : w{k}(c(x, y), b)<c(x, y), box(b)>")
    return lines(ls)

def roles_schedule(n, count, seed, noise, end="schedule\n"):
    rnd = random.Random(seed)
    out = [end]
    for i in range(count):
        out.append(f'start s {i}\nchoose s#{i} go {{{i}, "case number {i}"}}\n')
    sent = 2 * count
    at = "/go.1"
    for k in range(1, n):
        # deliveries in any order, some again, some not there, then the rest
        out += [f"deliver {rnd.randrange(sent)}\n" for _ in range(noise)]
        out.append("settle\n")
        sent += 6 * count
        word = f"pass{k} {{{k}}}" if k < n - 1 else f"end{k}"
        order = list(range(count))
        rnd.shuffle(order)
        out += [f"choose s#{i}{at} {word}\n" for i in order]
        at += f"/pass{k}.1"
    out.append("settle\n")
    out += [f"deliver {rnd.randrange(sent)}\n" for _ in range(noise)]
    return "".join(out)

put("roles8_1000", "replay", roles(8), roles_schedule(8, 1000, 1, 2000))
put("roles8_1800", "replay", roles(8), roles_schedule(8, 1800, 2, 3600))
put("roles16_200", "replay", roles(16), roles_schedule(16, 200, 3, 1000))
put("roles64_3", "replay", roles(64), roles_schedule(64, 3, 4, 20))
put("roles8_loads_1000", "replay", roles(8), roles_schedule(8, 1000, 5, 2000, "schedule 2\n"))

# 5. Guards: many rules with deep patterns on values that come late, with lists.
def guards(n):
    ls = ["role a", "role b", "con p 2", "con l 0", "con k 1"]
    ls += ["sort s a 0 1", "sort w b 3 1", "start s", "offer w", "use a w"]
    ls.append("rule go {x, y, z} : s()<r> = w(p(p(x, l), p(l, y)), p(p(p(z, x), y), k(k(k(l)))), k(k(p(y, z))))<r>")
    rnd = random.Random(7)
    def pat(depth, var):
        if depth == 0 or rnd.random() < 0.15:
            var[0] += 1
            return f"v{var[0]}"
        return f"p({pat(depth - 1, var)}, {pat(depth - 1, var)})"
    for i in range(n):
        var = [0]
        last = rnd.choice(["k(k(k(l)))", f"k(k(k(k(u))))", "k(k(u))", f"{i}"])
        ls.append(f"rule g{i} : w({pat(2, var)}, p({pat(2, var)}, {last}), k(k(p({i}, t))))<t>")
    ls.append("rule take : w(p(q, s1), m, k(k(p(y, z))))<p(q, z)>")
    return lines(ls)

def guards_schedule(cases, n, steps, every, seed):
    rnd = random.Random(seed)
    out = ["schedule\n"]
    for i in range(cases):
        out.append(f"start s {i}\nchoose s#{i} go {{{i}, {i % n}, p(l, l)}}\n")
    out += [f"deliver {2 * i}\n" for i in range(cases)]
    sent = 2 * cases
    for t in range(steps):
        for _ in range(every):
            out.append(f"deliver {rnd.randrange(sent)}\n")
        sent += every // 2
        out.append("list b\n")
        for _ in range(every):
            i = rnd.randrange(cases)
            out.append(f"choose s#{i}/go.1 {'take' if rnd.random() < 0.02 else 'g' + str(rnd.randrange(n))}\n")
    out.append("settle\nlist b\n")
    return "".join(out)

put("guards_50x40", "replay", guards(40), guards_schedule(50, 40, 100, 60, 1))
put("guards_200x100", "replay", guards(100), guards_schedule(200, 100, 40, 400, 2))
put("guards_late_3000", "replay", guards(200), guards_schedule(3000, 200, 1, 250000, 3).replace("list b\n", ""))

# Guards at the end of a long way of results that are passed on.
SAME = lines(["role a", "role b", "con k 1", "con z 0", "sort s a 0 0", "sort w a 1 1", "sort g a 1 0", "sort h b 1 1", "start s",
              "offer h", "use a h",
              "rule go {v} : s()<> = h(v)<x> ; w(x)<y> ; g(y)<>",
              "rule more : w(x)<y8> = w(x)<y1> ; w(y1)<y2> ; w(y2)<y3> ; w(y3)<y4> ; w(y4)<y5> ; w(y5)<y6> ; w(y6)<y7> ; w(y7)<y8>",
              "rule end : w(x)<x>", "rule got : g(k(z))<>", "rule give : h(x)<k(z)>"])
def same_schedule(depth, tests):
    out = ["schedule\nstart s 1\nchoose s#1 go {1}\n"]
    level = ["s#1/go.2"]
    for d in range(depth):
        nxt = []
        for n in level:
            out.append(f"choose {n} {'more' if d < depth - 1 else 'end'}\n")
            nxt += [f"{n}/more.{k}" for k in range(1, 9)]
        level = nxt
    out += ["choose s#1/go.3 got\n"] * tests
    out += ["settle\nchoose s#1/go.1 give\nsettle\n"] + ["choose s#1/go.3 got\n"] * tests
    return "".join(out)
put("same_way_37449", "replay", SAME, same_schedule(6, 20000))

# 6. check on the largest specification.
def big(rules, sorts, seed, dense=True):
    rnd = random.Random(seed)
    ls = ["role r", "con c 4", "con o 0"]
    ls += [f"sort s{k} r 8 8" for k in range(sorts)]
    for i in range(rules):
        k = i % sorts
        xs = ", ".join(f"x{j}" for j in range(8))
        # children pass on values in a shifting order; a slow least relation
        ch, n = [], 0
        if k + 1 < sorts:
            for c in range(6):
                t = rnd.randrange(k + 1, min(sorts, k + 4)) if dense else k + 1
                args = [f"x{(j + c + i) % 8}" for j in range(8)]
                ch.append(f"s{t}({', '.join(args)})<" + ", ".join(f"y{c}{j}" for j in range(8)) + ">")
                n += 1
        if ch:
            rs = []
            for j in range(8):
                rs.append(f"c(y{j % n}{j}, y{(j + 1) % n}{(j + 3) % 8}, y{(j + 2) % n}{(j + 5) % 8}, x{j})")
            ls.append(f"rule u{i} : s{k}({xs})<{', '.join(rs)}> = " + " ; ".join(ch))
        else:
            ls.append(f"rule u{i} : s{k}({xs})<{', '.join(f'x{(j * 3 + i) % 8}' for j in range(8))}>")
    return lines(ls)

# The slowest growth: sort k's pairs come one by one from sort k's own rules.
def ladder(rules, sorts):
    ls = ["role r", "con o 0"] + [f"sort s{k} r 8 8" for k in range(sorts)]
    xs = ", ".join(f"x{j}" for j in range(8))
    for i in range(rules):
        k, v = i % sorts, i // sorts
        t = (k + 1) % sorts
        if v == 0 and k == 0:
            ls.append(f"rule u{i} : s{k}({xs})<x0, " + ", ".join(["o"] * 7) + ">")
            continue
        ch, rs = [], ["o"] * 8
        for c in range(7):
            args = ["o"] * 8
            args[(c + v) % 8] = f"x{c}"
            args[(c + v + 1) % 8] = f"x{c + 1}"
            ch.append(f"s{t}({', '.join(args)})<" + ", ".join(f"y{c}{j}" for j in range(8)) + ">")
            rs[c] = f"y{c}{(c + v) % 8}"
            if c == 6:
                rs[7] = f"y{c}{(c + 3) % 8}"
        ls.append(f"rule u{i} : s{k}({xs})<{', '.join(rs)}> = " + " ; ".join(ch))
    return lines(ls)

put("check_small", "check", S)
put("check_dense_1024", "check", big(1024, 256, 1))
put("check_line_1024", "check", big(1024, 256, 2, False))
put("check_ladder_1024", "check", ladder(1024, 256))
put("check_apart_wait_1024", "check", big(1024, 256, 1).replace("rule u0 ", "".join(f"depends s{k} {i} {j}\n" for k in range(256) for i in range(1, 9) for j in range(1, 9)) + "free\nrule u0 ", 1))

# 7. plain on medium cases.
put("plain_visits_30000", "plain", S, visits(30000, analyse=True))
put("plain_deep_50", "plain", chain(1), chain_schedule(1, 50, 250, False))
put("plain_wide_10x200", "plain", S16, sch16(10, 200))
put("plain_roles8_3000", "plain", roles(8), roles_schedule(8, 3000, 9, 0))
put("plain_deep_3roles_30", "plain", chain(3), chain_schedule(3, 30, 120, True))

# 8. Parsing.
def fill(unit, head, room=LIMIT):
    n = (room - len(head)) // len(unit)
    return head + unit * n
put("parse_blank_16m", "replay", "\n" * LIMIT)
put("parse_comments_16m", "replay", fill("% nothing is said on this line, which is passed over\n", S + "schedule\n"))
put("parse_deliver_16m", "replay", fill("deliver 0\n", S + "schedule\n"))
put("parse_settle_16m", "replay", fill("settle\n", S + "schedule\n"))
put("parse_texts_16m", "replay", fill('choose visit#1 admit {"' + "a text \\\\ of some \\n length " * 35 + '"}\n', S + "schedule\n"))
put("parse_terms_16m", "replay", fill("choose visit#1 admit {report(" + "report(found(12345, blood(\"x y\")), " * 27 + "none" + ")" * 27 + ", 3)}\n", S + "schedule\n"))
put("parse_names_16m", "replay", fill("choose visit#17/admit.1 analyse {7}\n", S + "schedule\n"))
def spec16():
    ls = ["role r", "con c 8", "con o 0", "sort s r 0 1", "sort t r 1 1", "start s"]
    texts = [f'"{"x" * 60}{i}"' for i in range(250)]
    n = 0
    size = sum(len(l) + 1 for l in ls)
    while n < 1000 and size < LIMIT - 20000:
        body = "o"
        args = texts[:7 * 31]
        for d in range(31):
            body = "c(" + ", ".join(args[d * 7:d * 7 + 7] + [body]) + ")"
        l = f"rule u{n} : s()<{body}>"
        ls.append(l)
        size += len(l) + 1
        n += 1
    return lines(ls)
put("parse_spec_16m", "check", spec16())

# the trial
cases.append(("trial_7", "trial 7", 0))
with open(os.path.join(DIR, "cases.tsv"), "w") as f:
    for name, words, size in cases:
        f.write(f"{name}\t{words}\t{size}\n")
print(len(cases), "cases in", DIR)
