"""Reads a document, with the causes of refusal, and derives its plan by brute force."""
import itertools, re
from types import SimpleNamespace as Rec


class Refused(Exception):
    """The program's answer with another status than 0: status and text."""

    def __init__(self, status, text):
        self.status, self.text = status, text


LINE_WORDS = {"sort": 1, "pred": 2, "num": 3, "clause": 4, "op": 5, "set": 5, "clear": 5, "add": 5, "sub": 5, "free": 6, "replicas": 7,
              "stop": 8, "do": 9, "send": 9, "take": 9, "crash": 9, "recover": 9, "turns": 10, "client": 11, "ask": 12}
RESERVED = set("sort pred num clause op set clear add sub free replicas stop do send take crash recover turns client at ask init min max and or "
               "mask interval true add_wins remove_wins locked drop twice late plan certificate".split())
TOKEN = re.compile(r"[ \t]*(?:(=>|[(),:*=-])|([a-z][A-Za-z0-9_]*)|([0-9]+))")


class Bad(Exception):
    pass


def split_lines(data):
    lines = data.split(b"\n")
    if lines and lines[-1] == b"":
        lines.pop()
        ended = len(lines)
    else:
        ended = len(lines) - 1
    return [l[:-1] if i < ended and l.endswith(b"\r") else l for i, l in enumerate(lines)]


def tokens(raw):
    if any(not (c == 9 or 32 <= c <= 126) for c in raw):
        raise Bad("not ascii")
    text = raw.decode().split("#")[0].rstrip(" \t")
    out, at = [], 0
    while at < len(text):
        m = TOKEN.match(text, at)
        if not m:
            raise Bad("bad token")
        sym, word, num = m.groups()
        at = m.end()
        if sym:
            out.append(sym)
        elif word:
            if len(word) > 32:
                raise Bad("bad token")
            out.append(word)
        else:
            limit = 10 ** 12
            if out[:1] == ["stop"] and 2 <= len(out) <= 4:
                limit = [4294967295, 4294967295, 255][len(out) - 2]
            if (len(num) > 1 and num[0] == "0") or int(num) > limit or re.match(r"[A-Za-z_]", text[at:at + 1]):
                raise Bad("bad token")
            out.append(int(num))
    return out


class Form:
    """Walks over the tokens of one line."""

    def __init__(self, toks):
        self.toks, self.at = toks, 0

    def peek(self):
        return self.toks[self.at] if self.at < len(self.toks) else None

    def next(self):
        t = self.peek()
        if t is None:
            raise Bad("bad form")
        self.at += 1
        return t

    def want(self, t):
        if self.peek() != t or isinstance(self.peek(), int):
            raise Bad("bad form")
        self.at += 1

    def word(self):
        t = self.next()
        if not isinstance(t, str) or not t[0].isalpha():
            raise Bad("bad form")
        return t

    def num(self):
        t = self.next()
        if not isinstance(t, int):
            raise Bad("bad form")
        return t

    def may(self, t):
        if self.peek() == t:
            self.at += 1
            return True
        return False

    def list(self, item):
        self.want("(")
        out = []
        if self.may(")"):
            return out
        while True:
            out.append(item())
            if self.may(")"):
                return out
            self.want(",")

    def end(self):
        if self.peek() is not None:
            raise Bad("bad form")


def check(test, cause):
    if not test:
        raise Bad(cause)


def parse(data, stop_at_plan=False):
    """The document, as a record with spec, replicas, stops, and schedule (a list of (replica, ask, number of line)), or turns,
    homes (of each client its replica) and asks (a list of (client, ask)); Refused otherwise."""
    spec = Rec(sorts=[], preds=[], nums=[], clauses=[], ops=[], free=[])
    doc = Rec(spec=spec, replicas=None, schedule=[], stops=[], turns=None, homes=[], asks=[], first_client_line=None)
    rank, sends, atoms_cells, instances = 0, {}, 0, 0
    names = {}

    def find(kind, name):
        got = names.get(name)
        check(got and got[0] == kind, "unknown name")
        return got[1]

    def declare(kind, name, at):
        check(name not in RESERVED and name not in names, "name taken")
        names[name] = (kind, at)

    def size(sorts):
        n = 1
        for s in sorts:
            n *= spec.sorts[s].size
        return n

    def request(place_is_right, name, args):
        o = find("op", name)
        params = spec.ops[o].params
        check(len(args) == len(params) and all(isinstance(a, tuple) == p.interval for a, p in zip(args, params)), "wrong arguments")
        spans = [a if isinstance(a, tuple) else (a, a) for a in args]
        check(place_is_right and all(lo <= hi < spec.sorts[p.sort].size for (lo, hi), p in zip(spans, params)), "out of range")
        return ("Do", Rec(op=o, args=spans))

    def turns_asked():
        return len(doc.asks) + 2 * (doc.turns or 0) * doc.replicas

    lines = split_lines(data)
    for number, raw in enumerate(lines, 1):
        if stop_at_plan and raw == b"plan":
            break
        try:
            toks = tokens(raw)
            if not toks:
                continue
            head = toks[0]
            check(isinstance(head, str) and head in LINE_WORDS, "unknown line")
            f = Form(toks)
            f.next()
            # the form
            if head == "sort":
                name, n = f.word(), f.num()
            elif head == "pred":
                name, sorts = f.word(), f.list(f.word)
                rule = f.word()
                check(rule in ("add_wins", "remove_wins", "locked"), "bad form")
                first = f.may("true")
            elif head == "num":
                name, sorts = f.word(), f.list(f.word)
                f.want("init")
                init, low, high = f.num(), None, None
                if f.may("min"):
                    low = f.num()
                if f.may("max"):
                    high = f.num()
            elif head == "clause":
                def var():
                    v = f.word()
                    f.want(":")
                    return v, f.word()

                def literal():
                    w = f.word()
                    if f.may("="):
                        return "=", w, f.word()
                    return "atom", w, f.list(f.word)

                variables = f.list(var)
                premise, conclusion, mask = [], [], False
                if not f.may("=>"):
                    premise.append(literal())
                    while not f.may("=>"):
                        f.want("and")
                        premise.append(literal())
                if f.toks[-1] == "mask" and f.at < len(f.toks):
                    mask = True
                    f.toks = f.toks[:-1]
                if f.peek() is not None:
                    conclusion.append(literal())
                    while f.peek() is not None:
                        f.want("or")
                        conclusion.append(literal())
            elif head == "op":
                def par():
                    v = f.word()
                    f.want(":")
                    return v, f.word(), f.may("interval")

                name, params = f.word(), f.list(par)
            elif head in ("set", "clear"):
                name, terms = f.word(), f.list(lambda: "*" if f.may("*") else f.word())
            elif head in ("add", "sub"):
                amount, name, terms = f.num(), f.word(), f.list(f.word)
            elif head == "free":
                one, two = f.word(), f.word()
            elif head in ("replicas", "turns"):
                n = f.num()
            elif head == "stop":
                stop = [f.num() for _ in range(4)]
            elif head in ("do", "ask"):
                r = f.num()
                if head == "ask" and f.toks[f.at:] in (["crash"], ["recover"]):
                    name, args = f.word(), None
                else:
                    def arg():
                        lo = f.num()
                        if f.may("-"):
                            return (lo, f.num())
                        return lo
                    name, args = f.word(), f.list(arg)
            elif head == "send":
                r, peer = f.num(), f.num()
            elif head == "take":
                r, peer, k = f.num(), f.num(), f.num()
            elif head in ("crash", "recover"):
                r = f.num()
            elif head == "client":
                n = f.num()
                f.want("at")
                r = f.num()
            f.end()
            # out of place
            at = LINE_WORDS[head]
            check(at >= rank, "out of place")
            if head in ("set", "clear", "add", "sub"):
                check(spec.ops, "out of place")
            if head == "replicas":
                check(doc.replicas is None, "out of place")
            if at >= 8:
                check(doc.replicas is not None, "out of place")
            if at == 9:
                check(doc.first_client_line is None, "out of place")
            if at >= 10:
                check(not doc.schedule and not (head == "turns" and doc.turns is not None), "out of place")
                doc.first_client_line = doc.first_client_line or number
            rank = at
            # names, arguments, ranges
            if head == "sort":
                declare("sort", name, len(spec.sorts))
                check(1 <= n <= 1024, "out of range")
                check(len(spec.sorts) < 16, "too many")
                spec.sorts.append(Rec(name=name, size=n))
            elif head == "pred":
                declare("pred", name, len(spec.preds))
                sorts = [find("sort", s) for s in sorts]
                atoms_cells += size(sorts)
                check(len(spec.preds) < 64 and len(sorts) <= 3 and atoms_cells <= 65536, "too many")
                spec.preds.append(Rec(name=name, sorts=sorts, rule=rule, first=first))
            elif head == "num":
                declare("num", name, len(spec.nums))
                sorts = [find("sort", s) for s in sorts]
                atoms_cells += size(sorts)
                check(len(spec.nums) < 64 and len(sorts) <= 3 and atoms_cells <= 65536, "too many")
                check((low is None or low <= init) and (high is None or init <= high), "false at start")
                spec.nums.append(Rec(name=name, sorts=sorts, init=init, min=low, max=high))
            elif head == "clause":
                given = [v for v, s in variables]
                check(len(set(given)) == len(given) and not set(given) & RESERVED, "name taken")
                sorts = [find("sort", s) for v, s in variables]

                def lit(l):
                    for v in (l[1:] if l[0] == "=" else l[2]):
                        check(v in given, "unknown name")
                    if l[0] == "=":
                        return ("Equal", given.index(l[1]), given.index(l[2]))
                    return ("Atom", find("pred", l[1]), [given.index(v) for v in l[2]])
                lits = [lit(l) for l in premise], [lit(l) for l in conclusion]
                for l in lits[0] + lits[1]:
                    if l[0] == "Equal":
                        check(sorts[l[1]] == sorts[l[2]], "wrong arguments")
                    else:
                        check([sorts[v] for v in l[2]] == spec.preds[l[1]].sorts, "wrong arguments")
                instances += size(sorts)
                check(len(spec.clauses) < 64 and len(sorts) <= 4 and len(lits[0]) + len(lits[1]) <= 8 and instances <= 1000000, "too many")
                clause = Rec(vars=[Rec(name=v, sort=s) for v, s in zip(given, sorts)], premise=lits[0], conclusion=lits[1], mask=mask)
                for xs in itertools.product(*[range(spec.sorts[s].size) for s in sorts]):
                    check(any((xs[l[1]] == xs[l[2]]) == sign if l[0] == "Equal" else spec.preds[l[1]].first == sign
                              for sign, ls in ((False, lits[0]), (True, lits[1])) for l in ls), "false at start")
                spec.clauses.append(clause)
            elif head == "op":
                given = [v for v, s, i in params]
                check(name not in RESERVED and name not in names and len(set(given)) == len(given) and not set(given) & RESERVED, "name taken")
                sorts = [find("sort", s) for v, s, i in params]
                check(sum(i for v, s, i in params) <= 1, "wrong arguments")
                check(len(spec.ops) < 64 and len(params) <= 4, "too many")
                names[name] = ("op", len(spec.ops))
                spec.ops.append(Rec(name=name, params=[Rec(name=v, sort=find("sort", s), interval=i) for v, s, i in params], lines=[]))
            elif head in ("set", "clear", "add", "sub"):
                op = spec.ops[-1]
                here = [p.name for p in op.params]
                target = find("pred" if head in ("set", "clear") else "num", name)
                for t in terms:
                    check(t == "*" or t in here, "unknown name")
                places = [None if t == "*" else here.index(t) for t in terms]
                wanted = (spec.preds if head in ("set", "clear") else spec.nums)[target].sorts
                check(len(places) == len(wanted) and all(i is None or op.params[i].sort == s for i, s in zip(places, wanted)), "wrong arguments")
                inner = [i for i in places if i is not None and op.params[i].interval]
                check(len(inner) <= (1 if head in ("set", "clear") else 0), "wrong arguments")
                if head in ("add", "sub"):
                    check(1 <= amount <= 10 ** 9, "out of range")
                check(len(op.lines) < 16, "too many")
                op.lines.append((head.capitalize(), target, places) if head in ("set", "clear") else (head.capitalize(), target, places, amount))
            elif head == "free":
                spec.free.append((find("op", one), find("op", two)))
            elif head == "replicas":
                check(1 <= n <= 8, "out of range")
                doc.replicas = n
            elif head == "stop":
                check(stop[0] < doc.replicas, "out of range")
                check(len(doc.stops) < 1000, "too many")
                doc.stops.append(stop)
            elif at == 9:
                if head == "do":
                    ask = request(r < doc.replicas, name, args)
                elif head == "send":
                    check(r < doc.replicas and peer < doc.replicas and r != peer, "out of range")
                    ask = ("Send", peer, sends.get((r, peer), 0))
                    sends[r, peer] = sends.get((r, peer), 0) + 1
                elif head == "take":
                    check(r < doc.replicas and peer < doc.replicas and r != peer and k < sends.get((peer, r), 0), "out of range")
                    ask = ("Take", peer, k)
                else:
                    check(r < doc.replicas, "out of range")
                    ask = (head.capitalize(),)
                check(len(doc.schedule) < 100000, "too many")
                doc.schedule.append((r, ask, number))
            elif head == "turns":
                check(n <= 10000, "out of range")
                doc.turns = n
                check(turns_asked() <= 100000, "too many")
            elif head == "client":
                check(n == len(doc.homes) and r < doc.replicas, "out of range")
                check(len(doc.homes) < 32, "too many")
                doc.homes.append(r)
            elif head == "ask":
                ask = (name.capitalize(),) if args is None else request(r < len(doc.homes), name, args)
                check(r < len(doc.homes), "out of range")
                check(turns_asked() < 100000, "too many")
                doc.asks.append((r, ask))
        except Bad as bad:
            raise Refused(3, f"line {number}: {bad}")
    else:
        number = len(lines) + 1
    if doc.replicas is None:
        raise Refused(3, f"line {number}: replicas missing")
    return doc


# ---- cases and queries

WINS = {"add_wins": True, "remove_wins": False, "locked": True}


def signed_literals(c):
    return [(False, l) for l in c.premise] + [(True, l) for l in c.conclusion]


def line_effect(op, has, p, xs):
    """What the operation sets an atom to: the last line that touches it; `has` tests a parameter's place and an element."""
    out = None
    for line in op.lines:
        if line[0] in ("Set", "Clear") and line[1] == p and all(i is None or has(i, x) for i, x in zip(line[2], xs)):
            out = line[0] == "Set"
    return out


def targets(spec):
    return [("clause", i) for i, c in enumerate(spec.clauses) if not c.mask] + [("locked", p) for p, d in enumerate(spec.preds) if d.rule == "locked"]


def target_sorts(spec, target):
    return [v.sort for v in spec.clauses[target[1]].vars] if target[0] == "clause" else spec.preds[target[1]].sorts


def stirling(n):
    row = [1]
    for _ in range(n):
        row = [(k * row[k] if k < len(row) else 0) + (row[k - 1] if k else 0) for k in range(len(row) + 1)]
    return row


def case_count(spec):
    total = 0
    for a in range(len(spec.ops)):
        for b in range(a, len(spec.ops)):
            for target in targets(spec):
                product = 1
                params = spec.ops[a].params + spec.ops[b].params
                for s, sort in enumerate(spec.sorts):
                    n = sum(not p.interval and p.sort == s for p in params) + target_sorts(spec, target).count(s)
                    m = sum(p.interval and p.sort == s for p in params)
                    row = stirling(n)
                    product *= sum(row[k] * 2 ** (k * m) for k in range(min(n, sort.size) + 1))
                total += product
    return total


def patterns(spec, sorts):
    """All class lists of elements of these sorts, in lexicographic order."""
    def go(at, used):
        if at == len(sorts):
            yield [], dict(used)
            return
        s = sorts[at]
        for c in range(min(used.get(s, 0) + 1, spec.sorts[s].size)):
            more = dict(used)
            more[s] = max(used.get(s, 0), c + 1)
            for rest, end in go(at + 1, more):
                yield [c] + rest, end
    return go(0, {})


def cases(spec, a, b):
    """The touched cases of a pair, in canonical order."""
    pa, pb = spec.ops[a].params, spec.ops[b].params
    plain_a, plain_b = ([i for i, p in enumerate(ps) if not p.interval] for ps in (pa, pb))
    for target in targets(spec):
        sorts = [pa[i].sort for i in plain_a] + [pb[i].sort for i in plain_b] + target_sorts(spec, target)
        for classes, counts in patterns(spec, sorts):
            ca = dict(zip(plain_a, classes))
            cb = dict(zip(plain_b, classes[len(plain_a):]))
            xs = classes[len(plain_a) + len(plain_b):]
            na, nb = ([counts.get(p.sort, 0) for p in ps if p.interval] for ps in (pa, pb))
            for bits_a in itertools.product(*[(0, 1)] * sum(na)):
                for bits_b in itertools.product(*[(0, 1)] * sum(nb)):
                    case = Rec(a=a, b=b, target=target, counts=counts, xs=xs, ca=ca, cb=cb, bits_a=bits_a, bits_b=bits_b)
                    case.has_a = lambda i, x, c=ca, bits=bits_a: c[i] == x if i in c else bool(bits[x])
                    case.has_b = lambda i, x, c=cb, bits=bits_b: c[i] == x if i in c else bool(bits[x])
                    if is_touched(spec, case):
                        yield case


def sets_of(spec, case, p, xs):
    return line_effect(spec.ops[case.a], case.has_a, p, xs), line_effect(spec.ops[case.b], case.has_b, p, xs)


def is_touched(spec, case):
    if case.target[0] == "locked":
        va, vb = sets_of(spec, case, case.target[1], case.xs)
        return va is not None and vb is not None and va != vb
    lits = signed_literals(spec.clauses[case.target[1]])
    if any(l[0] == "Equal" and (case.xs[l[1]] == case.xs[l[2]]) == sign for sign, l in lits):
        return False
    sets = [sets_of(spec, case, l[1], [case.xs[v] for v in l[2]]) for sign, l in lits if l[0] == "Atom"]
    return any(va is not None for va, vb in sets) and any(vb is not None for va, vb in sets)


ROWS = {  # by what a and b set (w, n or None): the states S, a, b, both; the variables; the clauses 'x to y'
    (None, None): ("sssss"[:4], "s", []), ("w", None): ("sWsW", "s", []), (None, "w"): ("ssWW", "s", []), ("w", "w"): ("sWWW", "s", []),
    ("w", "n"): ("sWqW", "sq", ["qs"]), ("n", "w"): ("spWW", "sp", ["ps"]), ("n", None): ("spsp", "sp", ["ps"]), (None, "n"): ("ssqq", "sq", ["qs"]),
    ("n", "n"): ("spqr", "spqr", ["ps", "qs", "rp", "rq"])}


def query(spec, case):
    """The query of a case of a clause: its atoms (with row and first variable), the count of variables, and its clauses."""
    def atoms_in(c, xs):
        return [(l[1], tuple(xs[v] for v in l[2])) for sign, l in signed_literals(c) if l[0] == "Atom"]
    target = spec.clauses[case.target[1]]
    shared = set(atoms_in(target, case.xs))
    hypotheses = []
    for c in spec.clauses:
        for xs in itertools.product(*[range(case.counts.get(v.sort, 0)) for v in c.vars]):
            if any(l[0] == "Equal" and (xs[l[1]] == xs[l[2]]) == sign for sign, l in signed_literals(c)):
                continue
            if shared & set(atoms_in(c, xs)):
                hypotheses.append((c, xs))
    atoms, count = {}, 0
    for c, xs in hypotheses:
        for p, args in atoms_in(c, xs):
            if (p, args) not in atoms:
                w = WINS[spec.preds[p].rule]
                row = ROWS[tuple(None if v is None else "w" if v == w else "n" for v in sets_of(spec, case, p, args))]
                atoms[p, args] = Rec(row=row, at=count, w=w)
                count += len(row[1])
    clauses = []

    def value(p, args, state):
        """The variable of an atom in a state, or None where it is always w."""
        atom = atoms[p, args]
        letter = atom.row[0][state]
        return None if letter == "W" else atom.at + atom.row[1].index(letter)
    for c, xs in hypotheses:
        for state in (0, 1, 2):
            form, given = [], False
            for sign, l in signed_literals(c):
                if l[0] == "Equal":
                    continue
                p, args = l[1], tuple(xs[v] for v in l[2])
                v, yes = value(p, args, state), sign == atoms[p, args].w
                if v is None:
                    given = given or yes
                elif (v, yes) not in form:
                    form.append((v, yes))
            if not given and not any((v, not yes) in form for v, yes in form):
                clauses.append(form)
    for atom in atoms.values():
        for x, y in atom.row[2]:
            clauses.append([(atom.at + atom.row[1].index(x), False), (atom.at + atom.row[1].index(y), True)])
    for sign, l in signed_literals(target):
        if l[0] == "Atom":
            p, args = l[1], tuple(case.xs[v] for v in l[2])
            v, yes = value(p, args, 3), sign == atoms[p, args].w
            if v is None:
                if yes:
                    clauses.append([])
            else:
                clauses.append([(v, not yes)])
    return atoms, count, clauses


def solve(count, clauses):
    """The least model, variable 0 first and false before true; None where there is none."""
    def propagate(model):
        changed = True
        while changed:
            changed = False
            for c in clauses:
                open_ = []
                for v, yes in c:
                    if model[v] is None:
                        open_.append((v, yes))
                    elif model[v] == yes:
                        break
                else:
                    if not open_:
                        return False
                    if len(open_) == 1:
                        model[open_[0][0]] = open_[0][1]
                        changed = True
        return True

    def go(model):
        if not propagate(model):
            return None
        if None not in model:
            return model
        at = model.index(None)
        for value in (False, True):
            tried = list(model)
            tried[at] = value
            got = go(tried)
            if got:
                return got
        return None
    return go([None] * count) if count else ([] if all(clauses) else None)


def list_text(params, classes, bits):
    parts = ["b" + "".join(map(str, bits)) if p.interval else str(classes[i]) for i, p in enumerate(params)]
    return ",".join(parts) or "-"


def derive(spec):
    """The derived plan: locks and parts, each (a, b, key); and masks. Refused where it is rejected, too hard or too much."""
    count = case_count(spec)
    if count > 100000:
        raise Refused(7, f"too many cases {count}")
    plan = Rec(locks=[], parts=[], masks=[i for i, c in enumerate(spec.clauses) if c.mask])
    for a in range(len(spec.ops)):
        for b in range(a, len(spec.ops)):
            conflicting = []
            is_free = (a, b) in spec.free or (b, a) in spec.free
            for case in cases(spec, a, b):
                model = None
                if case.target[0] == "clause":
                    atoms, variables, clauses = query(spec, case)
                    if variables > 128:
                        raise Refused(8, f"too hard {variables} variables")
                    model = solve(variables, clauses)
                    if model is None:
                        continue
                conflicting.append(case)
                if is_free:
                    name = case.target[1] if case.target[0] == "clause" else spec.preds[case.target[1]].name
                    text = [f"rejected free {spec.ops[a].name} {spec.ops[b].name}",
                            f"case {case.target[0]} {name} first {list_text(spec.ops[a].params, case.ca, case.bits_a)} "
                            f"second {list_text(spec.ops[b].params, case.cb, case.bits_b)} vars {','.join(map(str, case.xs)) or '-'}"]
                    if model is not None:
                        for (p, args), atom in atoms.items():
                            truths = [atom.w if letter == "W" or model[atom.at + atom.row[1].index(letter)] else not atom.w for letter in atom.row[0]]
                            text.append(f"atom {spec.preds[p].name}({','.join(map(str, args))}) " + " ".join(str(int(t)) for t in truths))
                    raise Refused(1, "\n".join(text))
            if not conflicting:
                continue
            pa, pb = spec.ops[a].params, spec.ops[b].params
            key = []
            for i, p in enumerate(pa):
                for j, q in enumerate(pb):
                    if not p.interval and not q.interval and p.sort == q.sort and (a != b or i == j) and all(c.ca[i] == c.cb[j] for c in conflicting):
                        key.append((i, j))
                        break
            ia, ib = ([p.sort for p in ps if p.interval] for ps in (pa, pb))
            is_part = ia and ia == ib and all(any(x and y for x, y in zip(c.bits_a, c.bits_b)) for c in conflicting)
            (plan.parts if is_part else plan.locks).append(Rec(a=a, b=b, key=key))
    return plan


def plan_text(spec, plan):
    out = ["plan"]
    for word, kinds in (("lock", plan.locks), ("part", plan.parts)):
        for n, kind in enumerate(kinds):
            out.append(" ".join([word, str(n), spec.ops[kind.a].name, spec.ops[kind.b].name] + [f"{i}={j}" for i, j in kind.key]))
    return "\n".join(out) + "\n"


def read_plan(spec, text):
    """The plan of the lines `lock` and `part` of what `analyse` printed."""
    plan = Rec(locks=[], parts=[], masks=[i for i, c in enumerate(spec.clauses) if c.mask])
    ops = [o.name for o in spec.ops]
    for line in text.split("\n"):
        words = line.split()
        if words[:1] in (["lock"], ["part"]):
            key = [tuple(map(int, w.split("="))) for w in words[4:]]
            kinds = plan.locks if words[0] == "lock" else plan.parts
            assert int(words[1]) == len(kinds), line
            kinds.append(Rec(a=ops.index(words[2]), b=ops.index(words[3]), key=key))
    return plan
