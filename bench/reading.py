"""A second reader of specifications and schedules, written from docs/LANGUAGE.md and docs/SCHEDULE.md and not from the
program: `refusal` tells the line and status that a text is refused with, or that it is good, and `accepted` what `check` writes of it.
It is slow and plain."""
import re

WORD_BYTES = b"abcdefghijklmnopqrstuvwxyz0123456789_#/."
NAME = re.compile(rb"[a-z][a-z0-9_]{0,63}\Z")
NUMBER = re.compile(rb"(0|[1-9][0-9]*)\Z")
NODE = re.compile(rb"([a-z][a-z0-9_]*)#(0|[1-9][0-9]*)((?:/[a-z][a-z0-9_]*\.[1-8])*)\Z")
BIGGEST = 2 ** 64 - 1
ORDER = ["role", "con", "sort", "start", "offer", "use", "type", "shape", "carry", "depends", "free", "rule", "schedule"]
MOST = {"role": 64, "con": 1024, "sort": 256, "type": 256, "rule": 1024}
NUM, TEXT = b"num", b"text"


class Bad(Exception):
    """A fault of some kind."""


# Tokens.

def is_number(word):
    return bool(NUMBER.match(word)) and int(word) <= BIGGEST


def is_node(word):
    found = NODE.match(word)
    if not found or not NAME.match(found[1]) or not is_number(found[2]):
        return False
    return all(NAME.match(step.split(b".")[0]) for step in found[3].split(b"/")[1:])


def text_at(line, at):
    """The content of the text whose first quote stands at this place, and the place behind its last."""
    content, at = bytearray(), at + 1
    while at < len(line):
        byte = line[at]
        if byte == 0x22:
            if len(content) > 1024:
                raise Bad("token")
            return bytes(content), at + 1
        if byte == 0x5C:
            pair = line[at + 1:at + 2]
            if pair not in (b'"', b"\\", b"n"):
                raise Bad("token")
            content += b"\n" if pair == b"n" else pair
            at += 2
        elif byte < 0x20 or byte == 0x7F:
            raise Bad("token")
        else:
            content.append(byte)
            at += 1
    raise Bad("token")


def tokens(line):
    """Pairs of a kind and a value."""
    found, at = [], 0
    while at < len(line):
        byte = line[at:at + 1]
        if byte in (b" ", b"\t", b"\r"):
            at += 1
        elif byte in b"()<>{},:=;":
            found.append(("mark", byte))
            at += 1
        elif byte == b'"':
            content, at = text_at(line, at)
            found.append(("text", content))
        elif byte in WORD_BYTES:
            end = at
            while end < len(line) and line[end] in WORD_BYTES:
                end += 1
            word, at = line[at:end], end
            kind = ("name" if NAME.match(word) else "number" if is_number(word) else "node" if is_node(word) else None)
            if kind is None:
                raise Bad("token")
            found.append((kind, word))
        else:
            raise Bad("token")
    return found


# Forms.

class Reader:
    """The tokens of a line, taken from the front."""

    def __init__(self, found):
        self.left = list(found)

    def take(self, kind):
        if not self.left or self.left[0][0] != kind:
            raise Bad("form")
        return self.left.pop(0)[1]

    def mark(self, byte):
        if self.take("mark") != byte:
            raise Bad("form")

    def stands(self, byte):
        return bool(self.left) and self.left[0] == ("mark", byte)

    def end(self):
        if self.left:
            raise Bad("form")

    def term(self):
        if not self.left:
            raise Bad("form")
        kind, value = self.left.pop(0)
        if kind in ("number", "text"):
            return (kind, value)
        if kind != "name":
            raise Bad("form")
        if self.stands(b"("):
            self.mark(b"(")
            return ("apply", value, self.terms(b")"))
        return ("word", value)

    def terms(self, close, least=0):
        found = []
        if least == 0 and self.stands(close):
            self.mark(close)
            return found
        while True:
            found.append(self.term())
            if self.stands(close):
                self.mark(close)
                return found
            self.mark(b",")

    def names(self, close, least=0):
        found = self.terms(close, least)
        if any(term[0] != "word" for term in found):
            raise Bad("form")
        return [term[1] for term in found]


def read_child(line):
    sort = line.take("name")
    line.mark(b"(")
    args = line.terms(b")")
    line.mark(b"<")
    return sort, args, line.names(b">")


def read_rule(line):
    name, params, children = line.take("name"), [], []
    if line.stands(b"{"):
        line.mark(b"{")
        params = line.names(b"}", 1)
    line.mark(b":")
    sort = line.take("name")
    line.mark(b"(")
    patterns = line.terms(b")")
    line.mark(b"<")
    results = line.terms(b">")
    if line.left:
        line.mark(b"=")
        children.append(read_child(line))
        while line.left:
            line.mark(b";")
            children.append(read_child(line))
    return name, params, sort, patterns, results, children


def read_shape(line):
    con = line.take("name")
    line.mark(b"(")
    return con, line.names(b")"), line.take("name")


def read_carry(line):
    sort = line.take("name")
    line.mark(b"(")
    takes = line.names(b")")
    line.mark(b"<")
    return sort, takes, line.names(b">")


def read_version(line):
    """What stands behind `schedule`: nothing, or the number 2."""
    if not line.left:
        return ()
    if line.take("number") != b"2":
        raise Bad("form")
    return (2,)


def read_form(found):
    """The word that begins a line of a specification, and what follows."""
    line = Reader(found)
    word = line.take("name").decode()
    parts = {"role": ["name"], "con": ["name", "number"], "sort": ["name", "name", "number", "number"],
             "start": ["name"], "offer": ["name"], "use": ["name", "name"], "type": ["name"],
             "depends": ["name", "number", "number"], "free": []}
    readers = {"rule": read_rule, "shape": read_shape, "carry": read_carry, "schedule": read_version}
    if word in readers:
        said = readers[word](line)
    elif word in parts:
        said = tuple(line.take(kind) for kind in parts[word])
    else:
        raise Bad("form")
    line.end()
    return word, said


# Terms.

def symbols(terms):
    return sum(1 + (symbols(term[2]) if term[0] == "apply" else 0) for term in terms)


def nesting(term):
    return 1 + max(map(nesting, term[2]), default=0) if term[0] == "apply" else 1


def words(terms, cons):
    """The variables in terms, from left to right."""
    for term in terms:
        if term[0] == "word" and term[1] not in cons:
            yield term[1]
        elif term[0] == "apply":
            yield from words(term[2], cons)


def unknown(terms, cons):
    return any(term[0] == "apply" and (term[1] not in cons or unknown(term[2], cons)) for term in terms)


def misfits(terms, cons):
    """Whether a constructor has another number of parts."""
    for term in terms:
        if term[0] == "word" and cons.get(term[1], 0) != 0:
            return True
        if term[0] == "apply" and (cons.get(term[1], len(term[2])) != len(term[2]) or misfits(term[2], cons)):
            return True
    return False


# Specifications.

class Specification:
    def __init__(self):
        self.roles, self.cons, self.sorts, self.rules = {}, {}, {}, {}
        self.starts, self.offers, self.uses = set(), set(), set()
        self.types, self.shapes, self.carries, self.depends = {}, {}, {}, set()
        self.free = self.typed = False
        self.last = 0

    def declare(self, word, said):
        """Raises the first kind that holds of a line, else takes it."""
        if ORDER.index(word) < self.last:
            raise Bad("order")
        self.last = ORDER.index(word)
        if word != "schedule":
            getattr(self, "add_" + word)(*said)

    def table(self, word):
        return getattr(self, word + "s")

    def check_new(self, word, name, past=False):
        if len(self.table(word)) >= MOST[word] or past:
            raise Bad("limit")
        if name in self.table(word):
            raise Bad("double")

    def add_role(self, name):
        self.check_new("role", name)
        self.roles[name] = len(self.roles)

    def add_con(self, name, parts):
        self.check_new("con", name, int(parts) > 8)
        self.cons[name] = int(parts)

    def add_sort(self, name, role, takes, gives):
        self.check_new("sort", name, int(takes) > 8 or int(gives) > 8)
        if role not in self.roles:
            raise Bad("unknown")
        self.sorts[name] = (role, int(takes), int(gives))

    def add_start(self, sort):
        if sort in self.starts:
            raise Bad("double")
        if sort not in self.sorts:
            raise Bad("unknown")
        if self.sorts[sort][1] != 0:
            raise Bad("inherits")
        self.starts.add(sort)

    def add_offer(self, sort):
        if sort in self.offers:
            raise Bad("double")
        if sort not in self.sorts:
            raise Bad("unknown")
        self.offers.add(sort)

    def add_use(self, role, sort):
        if (role, sort) in self.uses:
            raise Bad("double")
        if role not in self.roles or sort not in self.sorts:
            raise Bad("unknown")
        self.uses.add((role, sort))

    def is_type(self, name):
        return name in (NUM, TEXT) or name in self.types

    def add_type(self, name):
        self.typed = True
        if len(self.types) >= MOST["type"]:
            raise Bad("limit")
        if self.is_type(name):
            raise Bad("double")
        self.types[name] = len(self.types)

    def add_shape(self, con, parts, own):
        self.typed = True
        if con in self.shapes:
            raise Bad("double")
        if con not in self.cons or not all(map(self.is_type, parts + [own])):
            raise Bad("unknown")
        if len(parts) != self.cons[con]:
            raise Bad("arity")
        self.shapes[con] = (parts, own)

    def add_carry(self, sort, takes, gives):
        self.typed = True
        if sort in self.carries:
            raise Bad("double")
        if sort not in self.sorts or not all(map(self.is_type, takes + gives)):
            raise Bad("unknown")
        if self.sorts[sort][1:] != (len(takes), len(gives)):
            raise Bad("arity")
        self.carries[sort] = (takes, gives)

    def add_depends(self, sort, i, j):
        pair = (sort, int(i), int(j))
        if pair in self.depends:
            raise Bad("double")
        if sort not in self.sorts:
            raise Bad("unknown")
        if not (1 <= pair[1] <= self.sorts[sort][1] and 1 <= pair[2] <= self.sorts[sort][2]):
            raise Bad("arity")
        self.depends.add(pair)

    def add_free(self):
        if self.free:
            raise Bad("double")
        self.free = True

    def add_rule(self, name, params, sort, patterns, results, children):
        args = [term for child in children for term in child[1]]
        given = [result for child in children for result in child[2]]
        entering = list(words(patterns, self.cons)) + params + given
        every = patterns + args + results
        lists = [patterns, results, params, children]
        self.check_new("rule", name, any(len(one) > 8 for one in lists) or symbols(every) > 256
                       or any(nesting(term) > 32 for term in every) or len(entering) > 64)
        if any(one in self.cons for one in params + given):
            raise Bad("clash")
        if any(one not in self.sorts for one in [sort] + [child[0] for child in children]) or unknown(every, self.cons):
            raise Bad("unknown")
        if self.rule_misfits(sort, patterns, results, children) or misfits(every, self.cons):
            raise Bad("arity")
        if len(set(entering)) != len(entering):
            raise Bad("twice")
        if any(word not in entering for word in words(args + results, self.cons)):
            raise Bad("never")
        self.check_faces(self.sorts[sort][0], children)
        self.rules[name] = (sort, params, patterns, results, children)

    def rule_misfits(self, sort, patterns, results, children):
        return (self.sorts[sort][1:] != (len(patterns), len(results))
                or any(self.sorts[child[0]][1:] != (len(child[1]), len(child[2])) for child in children))

    def check_faces(self, role, children):
        for sort, _, _ in children:
            if self.sorts[sort][0] != role:
                if (role, sort) not in self.uses:
                    raise Bad("notused")
                if sort not in self.offers:
                    raise Bad("notoffered")


# Types.

def place(number, side, position):
    """The text of an occurrence."""
    return "%d.%s%d" % (number, ("in", "out")[side], position)


def places_of(spec, term, own, found):
    """Each variable of a term with the type of its place, into a list."""
    if term[0] == "word" and term[1] not in spec.cons:
        found.append((term[1], own))
    elif term[0] == "apply":
        for part, kind in zip(term[2], spec.shapes[term[1]][0]):
            places_of(spec, part, kind, found)
    return found


def has_type(spec, term, own, variables):
    """Whether a term has a type. A variable without a type has any."""
    if term[0] in ("number", "text"):
        return own == (NUM if term[0] == "number" else TEXT)
    if term[0] == "word" and term[1] not in spec.cons:
        return variables.get(term[1], own) == own
    parts, kind = spec.shapes[term[1]]
    return kind == own and all(has_type(spec, part, one, variables) for part, one in zip(term[2] if term[0] == "apply" else [], parts))


def parameter_types(spec, rule):
    """The type of each parameter, None where it stands nowhere."""
    sort, params, _, results, children = rule
    found = []
    for term, own in zip(results, spec.carries[sort][1]):
        places_of(spec, term, own, found)
    for child, args, _ in children:
        for term, own in zip(args, spec.carries[child][0]):
            places_of(spec, term, own, found)
    return [next((own for name, own in found if name == param), None) for param in params]


def rule_type_fault(spec, rule):
    """The occurrence of the first term that has another type than its place, or nothing."""
    sort, params, patterns, results, children = rule
    variables = {name: own for name, own in zip(params, parameter_types(spec, rule)) if own}
    for term, own in zip(patterns, spec.carries[sort][0]):
        variables.update(places_of(spec, term, own, []))
    for child, _, names in children:
        variables.update(zip(names, spec.carries[child][1]))
    given = [(0, 0, patterns, spec.carries[sort][0]), (0, 1, results, spec.carries[sort][1])]
    given += [(number, 0, child[1], spec.carries[child[0]][0]) for number, child in enumerate(children, 1)]
    for number, side, terms, kinds in given:
        for position, (term, own) in enumerate(zip(terms, kinds), 1):
            if not has_type(spec, term, own, variables):
                return place(number, side, position)
    return None


def type_fault(spec):
    """The line of the first fault of types, or nothing."""
    if not spec.typed:
        return None
    for con in spec.cons:
        if con not in spec.shapes:
            return "bad types con %s" % con.decode()
    for sort in spec.sorts:
        if sort not in spec.carries:
            return "bad types sort %s" % sort.decode()
    for name, rule in spec.rules.items():
        found = rule_type_fault(spec, rule)
        if found:
            return "bad types rule %s at %s" % (name.decode(), found)
    return None


# Acceptance.

def occurrences(spec, name):
    """The edges of a rule: from where a variable enters to what uses it. An occurrence is child, 0 for inherited and 1 for
    a result, and number."""
    _, params, patterns, results, children = spec.rules[name]
    enters = {}
    for number, pattern in enumerate(patterns, 1):
        for word in words([pattern], spec.cons):
            enters[word] = (0, 0, number)
    for place, child in enumerate(children, 1):
        for number, word in enumerate(child[2], 1):
            enters[word] = (place, 1, number)
    uses = [((0, 1, number), term) for number, term in enumerate(results, 1)]
    for place, child in enumerate(children, 1):
        uses += [((place, 0, number), term) for number, term in enumerate(child[1], 1)]
    return {(enters[word], to) for to, term in uses for word in words([term], spec.cons) if word in enters}


def reached(edges, begin):
    """What is reached over one edge or more."""
    found, left = set(), [begin]
    while left:
        at = left.pop()
        for one, other in edges:
            if one == at and other not in found:
                found.add(other)
                left.append(other)
    return found


def all_edges(spec, name, relation):
    edges = occurrences(spec, name)
    for place, child in enumerate(spec.rules[name][4], 1):
        edges |= {((place, 0, i), (place, 1, j)) for sort, i, j in relation if sort == child[0]}
    return edges


def relations(spec, rules=None, seed=frozenset()):
    """The least relation that holds the seed and is closed under these rules, or under all."""
    relation = set(seed)
    while True:
        more = set()
        for name in spec.rules if rules is None else rules:
            rule, edges = spec.rules[name], all_edges(spec, name, relation)
            for i in range(1, len(rule[2]) + 1):
                more |= {(rule[0], i, to[2]) for to in reached(edges, (0, 0, i)) if to[:2] == (0, 1)}
        if more <= relation:
            return relation
        relation |= more


def circle(spec, relation, rules=None):
    """The least circle, as a rule and an occurrence, or nothing."""
    for name in spec.rules if rules is None else rules:
        edges = all_edges(spec, name, relation)
        for at in sorted({one for edge in edges for one in edge}):
            if at in reached(edges, at):
                return "%s at %s" % (name.decode(), place(*at))
    return None


def in_order(spec, relation):
    order = {name: number for number, name in enumerate(spec.sorts)}
    return sorted(relation, key=lambda pair: (order[pair[0]],) + pair[1:])


# Roles apart, and waiting.

def role_line(spec, role):
    """What a role finds that is checked by its own rules and what is declared."""
    rules = [name for name, rule in spec.rules.items() if spec.sorts[rule[0]][0] == role]
    declared = {pair for pair in spec.depends if spec.sorts[pair[0]][0] != role}
    relation = relations(spec, rules, declared)
    found = circle(spec, relation, rules)
    if found:
        return "circular " + found
    own = {pair for pair in relation if spec.sorts[pair[0]][0] == role and pair[0] in spec.offers}
    past = in_order(spec, own - spec.depends)
    return "exceeds %s %d %d" % (past[0][0].decode(), *past[0][1:]) if past else "ok"


def wait_line(spec):
    def is_guard(term):
        return term[0] != "word" or term[1] in spec.cons
    guarded = {(rule[0], i) for rule in spec.rules.values() for i, term in enumerate(rule[2], 1) if is_guard(term)}
    seed = {(sort, i, j) for sort, i in guarded for j in range(1, spec.sorts[sort][2] + 1)}
    found = circle(spec, relations(spec, None, seed))
    return "wait circle " + found if found else "wait free"


# Schedules.

def ground_unknown(terms, cons):
    return any(term[0] in ("word", "apply") and (term[1] not in cons or term[0] == "apply" and ground_unknown(term[2], cons))
               for term in terms)


def check_node(spec, word):
    """Whether the name of a node is valid."""
    found = NODE.match(word)
    sort, steps = found[1], [step.split(b".") for step in found[3].split(b"/")[1:]]
    if sort not in spec.starts:
        return False
    for rule, child in steps:
        if rule not in spec.rules or spec.rules[rule][0] != sort or int(child) > len(spec.rules[rule][4]):
            return False
        sort = spec.rules[rule][4][int(child) - 1][0]
    return True


def check_event(spec, found):
    """Raises the first kind that holds of a line of a schedule."""
    line = Reader(found)
    word = line.take("name").decode()
    if word == "choose":
        node, rule, args = line.take("node"), line.take("name"), []
        if line.stands(b"{"):
            line.mark(b"{")
            args = line.terms(b"}", 1)
        line.end()
        check_choice(spec, node, rule, args)
    elif word == "start":
        sort, _ = line.take("name"), line.take("number")
        line.end()
        if sort not in spec.sorts:
            raise Bad("unknown")
        if sort not in spec.starts:
            raise Bad("notstart")
    elif word == "list":
        role = line.take("name")
        line.end()
        if role not in spec.roles:
            raise Bad("unknown")
    elif word in ("deliver", "settle"):
        if word == "deliver":
            line.take("number")
        line.end()
    else:
        raise Bad("form")


def check_choice(spec, node, rule, args):
    if len(args) > 8 or symbols(args) > 256 or any(nesting(term) > 32 for term in args) or node.count(b"/") > 250:
        raise Bad("limit")
    if rule not in spec.rules or ground_unknown(args, spec.cons):
        raise Bad("unknown")
    if misfits(args, spec.cons):
        raise Bad("arity")
    if not check_node(spec, node):
        raise Bad("name")
    if spec.typed and len(args) == len(spec.rules[rule][1]):
        for term, own in zip(args, parameter_types(spec, spec.rules[rule])):
            if own and not has_type(spec, term, own, {}):
                raise Bad("type")


# Whole texts.

def lines_of(data):
    lines = data.split(b"\n")
    return lines[:-1] if lines[-1] == b"" else lines


def is_passed_over(line):
    bare = line.strip(b" \t\r")
    return bare == b"" or bare[:1] == b"%"


def refusal(data, command, one_role):
    """The status, and the line written, with which a command refuses the input; `(0, None)` where it does not. `one_role`
    says that `replay` takes one role alone."""
    spec, events = Specification(), None
    lines = lines_of(data)
    for number, line in enumerate(lines, 1):
        if is_passed_over(line):
            continue
        try:
            word, said = read_form(tokens(line))
            spec.declare(word, said)
        except Bad as fault:
            return 3, "bad specification line %d %s" % (number, fault)
        if word == "schedule":
            events = number
            break
    found = type_fault(spec)
    if found:
        return 15, found
    found = circle(spec, relations(spec))
    if found:
        return 4, "circular " + found
    if command == "check":
        return 0, None
    behind = len(lines) if events is None else events
    for number, line in enumerate(lines[behind:], behind + 1):
        if is_passed_over(line):
            continue
        try:
            check_event(spec, tokens(line))
        except Bad as fault:
            return 5, "bad schedule line %d %s" % (number, fault)
    if one_role and command == "replay" and len(spec.roles) > 1:
        return 3, "bad specification roles"
    return 0, None


def accepted(data):
    """What `check` writes of a good specification that is accepted."""
    spec = Specification()
    for line in lines_of(data):
        if not is_passed_over(line):
            word, said = read_form(tokens(line))
            if word == "schedule":
                break
            spec.declare(word, said)
    lines = ["accepted"] + ["io %s %d %d" % (sort.decode(), i, j) for sort, i, j in in_order(spec, relations(spec))]
    if spec.depends:
        apart = [role_line(spec, role) for role in spec.roles]
        lines += ["role %s %s" % (role.decode(), line) for role, line in zip(spec.roles, apart)]
        lines += ["joined"] * all(line == "ok" for line in apart)
    if spec.free:
        lines.append(wait_line(spec))
    return "".join(line + "\n" for line in lines)
