#!/usr/bin/env python3
"""Compares the built program with oracle.py on random documents, and on random schedules over three chosen ones.

usage: compare.py PROGRAM [SEED [COUNT]]

What differs is
printed with its seed; the document is kept in a file that the line names. Ends with 1 where something differs."""
import os, random, subprocess, sys, tempfile
import oracle
from document import Refused, case_count, parse

BOOK = """sort room 2
sort slot 6
sort guest 2
pred booked(room,slot,guest) add_wins
clause (r:room,s:slot,g:guest,h:guest) booked(r,s,g) and booked(r,s,h) => g = h
op book(r:room,i:slot interval,g:guest)
set booked(r,i,g)
op quit(r:room,i:slot interval,g:guest)
clear booked(r,i,g)
"""
MASK = """sort s 3
pred a(s) remove_wins true
pred b(s) remove_wins true
pred on() add_wins
clause (x:s,y:s) on() and x = y => a(x) or b(y) or x = y mask
clause (x:s,y:s) => a(x) or b(y) or x = y or a(x) mask
op ca(i:s interval)
clear a(i)
op cb(i:s interval)
clear b(i)
op sa(x:s)
set a(x)
clear b(x)
op sb(x:s)
set b(x)
op up()
set on()
"""
TWO = """sort s 4
sort g 2
pred lead(s,g) locked
pred q(s) add_wins
pred r(s) remove_wins true
num n(g) init 5 min 1 max 8
clause (x:s,h:g,k:g) lead(x,h) and lead(x,k) => h = k
clause (x:s) q(x) => r(x)
op lease(x:s,h:g)
set lead(x,h)
sub 2 n(h)
op quit(i:s interval,h:g)
clear lead(i,h)
add 1 n(h)
op sq(i:s interval)
set q(i)
op cr(i:s interval)
clear q(i)
clear r(i)
op sr(x:s)
set r(x)
op fill(h:g,k:g)
add 3 n(h)
sub 2 n(k)
"""


def random_stops(rnd, n):
    """Stops of disks, most of them at their first calls; some name a call twice, and some keep all bytes."""
    lines = []
    for _ in range(rnd.choice([0, 1, 2, 4, 8])):
        lines.append(f"stop {rnd.randrange(n)} {rnd.choice([rnd.randrange(10), rnd.randrange(60)])} {rnd.choice([0, 1, 4, 9, 30, 4000])} {rnd.choice([0, 1, 255])}")
    return lines


def random_call(rnd, spec):
    """A request of an operation, mostly over short spans."""
    o = rnd.choice(spec.ops)
    args = []
    for p in o.params:
        size = spec.sorts[p.sort].size
        lo = rnd.randrange(size)
        args.append(f"{lo}-{min(size - 1, lo + rnd.choice([0, 0, 1, 2, 3]))}" if p.interval else str(lo))
    return f"{o.name}({','.join(args)})"


def random_spec(rnd):
    """The lines of a specification, its sorts with their sizes, and its operations with their parameters."""
    lines, sorts = [], []
    for i in range(rnd.randint(1, 2)):
        sorts.append((f"s{i}", rnd.randint(1, 4)))
        lines.append(f"sort s{i} {sorts[-1][1]}")
    preds, nums = [], []
    for i in range(rnd.randint(1, 3)):
        args = [rnd.choice(sorts)[0] for _ in range(rnd.choice([0, 0, 1, 1, 2]))]
        preds.append((f"p{i}", args))
        lines.append(f"pred p{i}({','.join(args)}) {rnd.choice(['add_wins', 'remove_wins', 'locked', 'add_wins', 'remove_wins'])}{rnd.choice(['', ' true'])}")
    for i in range(rnd.choice([0, 0, 1, 2])):
        args = [rnd.choice(sorts)[0] for _ in range(rnd.choice([0, 1]))]
        nums.append((f"n{i}", args))
        init = rnd.randint(0, 6)
        lines.append(f"num n{i}({','.join(args)}) init {init}" + rnd.choice(["", f" min {rnd.randint(0, init)}"]) + rnd.choice(["", f" max {init + rnd.randint(0, 5)}"]))
    for i in range(rnd.choice([0, 1, 1, 2, 3])):
        vs = [(f"x{k}", rnd.choice(sorts)[0]) for k in range(rnd.choice([0, 1, 2, 2, 3]))]

        def literal():
            if rnd.random() < 0.25:
                pairs = [(a, b) for a, s in vs for b, t in vs if s == t and a != b]
                if pairs:
                    return "%s = %s" % rnd.choice(pairs)
            fitting = [(p, a) for p, a in preds if all(any(t == s for v, t in vs) for s in a)]
            if not fitting:
                return None
            p, a = rnd.choice(fitting)
            return f"{p}({','.join(rnd.choice([v for v, t in vs if t == s]) for s in a)})"
        one = [l for l in (literal() for _ in range(rnd.choice([0, 0, 1, 2]))) if l]
        two = [l for l in (literal() for _ in range(rnd.choice([0, 1, 1, 2, 3]))) if l]
        head = f"clause ({','.join(f'{v}:{s}' for v, s in vs)}) "
        lines.append(head + (" and ".join(one) + " " if one else "") + "=>" + (" " + " or ".join(two) if two else "") + rnd.choice(["", " mask", " mask"]))
    ops = []
    for i in range(rnd.randint(1, 4)):
        params = [(f"a{k}", rnd.choice(sorts)[0], False) for k in range(rnd.choice([0, 1, 1, 2]))]
        if rnd.random() < 0.4:
            params.insert(rnd.randint(0, len(params)), ("iv", rnd.choice(sorts)[0], True))
        ops.append((f"o{i}", params))
        lines.append(f"op o{i}({','.join(f'{v}:{s}' + (' interval' if iv else '') for v, s, iv in params)})")
        for _ in range(rnd.randint(1, 3)):
            if nums and rnd.random() < 0.4:
                n, args = rnd.choice(nums)
                terms = [[v for v, s, iv in params if s == t and not iv] for t in args]
                if all(terms):
                    lines.append(f"{rnd.choice(['add', 'sub'])} {rnd.randint(1, 3)} {n}({','.join(map(rnd.choice, terms))})")
                continue
            p, args = rnd.choice(preds)
            terms, used = [], False
            for t in args:
                here = [v for v, s, iv in params if s == t and not (iv and used)]
                pick = rnd.choice(here + ["*"] if rnd.random() < 0.3 or not here else here)
                used = used or pick == "iv"
                terms.append(pick)
            lines.append(f"{rnd.choice(['set', 'clear'])} {p}({','.join(terms)})")
    return lines, sorts, ops


def random_document(rnd):
    lines, sorts, ops = random_spec(rnd)
    n = rnd.choice([1, 2, 2, 2, 3, 3, 4])
    lines.append(f"replicas {n}")
    crashes = rnd.random() < 0.5
    lines += random_stops(rnd, n) if crashes else []
    size, sent = dict(sorts), {}
    for _ in range(rnd.randint(5, 60)):
        r = rnd.randrange(n)
        if crashes and rnd.random() < 0.2:
            lines.append(f"{rnd.choice(['crash', 'recover', 'recover'])} {r}")
            continue
        what = rnd.choice(["do", "do", "do", "send", "take", "take", "swap"])
        if what == "do" or n == 1:
            o, params = rnd.choice(ops)
            args = []
            for v, s, iv in params:
                lo = rnd.randrange(size[s])
                args.append(f"{lo}-{rnd.randint(lo, size[s] - 1)}" if iv else str(lo))
            lines.append(f"do {r} {o}({','.join(args)})")
            continue
        p = rnd.choice([i for i in range(n) if i != r])
        if what == "take" and sent.get((p, r)):
            lines.append(f"take {r} {p} {rnd.choice([rnd.randrange(sent[p, r]), sent[p, r] - 1])}")
            continue
        lines.append(f"send {r} {p}")
        sent[r, p] = sent.get((r, p), 0) + 1
        if what == "swap":
            lines.append(f"take {p} {r} {sent[r, p] - 1}")
            lines.append(f"send {p} {r}")
            sent[p, r] = sent.get((p, r), 0) + 1
            lines.append(f"take {r} {p} {sent[p, r] - 1}")
    return "\n".join(lines) + "\n"


def schedule(rnd, spec, n):
    crashes = rnd.random() < 0.5
    lines, sent = random_stops(rnd, n) if crashes else [], {}
    for _ in range(rnd.randint(10, 90)):
        r = rnd.randrange(n)
        if crashes and rnd.random() < 0.15:
            lines.append(f"{rnd.choice(['crash', 'recover', 'recover'])} {r}")
            continue
        what = rnd.choice(["do", "do", "do", "send", "take", "swap"])
        if what == "do" or n == 1:
            lines.append(f"do {r} {random_call(rnd, spec)}")
            continue
        p = rnd.choice([i for i in range(n) if i != r])
        if what == "take" and sent.get((p, r)):
            lines.append(f"take {r} {p} {rnd.choice([rnd.randrange(sent[p, r]), sent[p, r] - 1])}")
            continue
        for a, b in ((r, p), (p, r)) if what == "swap" else ((r, p),):
            lines.append(f"send {a} {b}")
            sent[a, b] = sent.get((a, b), 0) + 1
            if what == "swap":
                lines.append(f"take {b} {a} {sent[a, b] - 1}")
    return "\n".join(lines) + "\n"


def documents(seed, count):
    """Numbered random documents, and schedules over the chosen ones; the cases of each are few enough for brute force."""
    for k in range(seed, seed + count):
        text = random_document(random.Random(k))
        try:
            few = case_count(parse(text.encode()).spec) <= 3000
        except Refused:
            few = True
        if few:
            yield f"document {k}", text
    for name, text in (("slots", BOOK), ("masks", MASK), ("locks", TWO)):
        for n in (1, 2, 3):
            head = text + f"replicas {n}\n"
            spec = parse(head.encode()).spec
            for k in range(seed, seed + count // 10):
                yield f"{name} {n} {k}", head + schedule(random.Random(f"{k} {n}"), spec, n)


def expected(text):
    """The status and the output that the definitions give."""
    try:
        setup, asks = oracle.setup_of(text.encode())
    except Refused as refused:
        return refused.status, refused.text
    entries, world = oracle.run(setup, asks)
    return 0, oracle.trace_text(setup, entries, world)


def main():
    program, seed, count = os.path.abspath(sys.argv[1]), *(int(w) for w in (sys.argv[2:] + ["0", "200"][len(sys.argv) - 2:])[:2])
    same, other, folder = 0, 0, None
    for name, text in documents(seed, count):
        ran = subprocess.run([program, "simulate"], input=text.encode(), capture_output=True)
        out = ran.stdout.decode()
        status, wanted = expected(text)
        if (ran.returncode, out.rstrip("\n")) == (status, wanted.rstrip("\n")):
            same += 1
            continue
        other += 1
        folder = folder or tempfile.mkdtemp()
        path = os.path.join(folder, name.replace(" ", "-") + ".txt")
        with open(path, "w") as file:
            file.write(text)
        print(f"{name} differs: {path}")
    print(f"{same} alike, {other} differ")
    return 1 if other else 0


if __name__ == "__main__":
    sys.exit(main())
