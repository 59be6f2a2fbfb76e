#!/usr/bin/env python3
"""The definitions of spec_model/specs and run_model/specs, said in Python under the same names, as a simulator.

usage: oracle.py DOCUMENT [PLAN] [--sound] [--plan]

Prints what `simulate` has to print, and ends with its status. DOCUMENT is a file, or - for the input. PLAN is a file with
what `analyse` prints (only its lines `lock` and `part` are read); without it the plan is derived by brute force.
--plan prints the plan alone. --sound also checks IsSound in the last world, over every consistent cut, and says what fails.
A document with clients is refused as the program does; running.py has what they add.

An own log is given to the definitions as a list; since logs only grow, what was found of a log of some length is kept, but
forgotten where a step leaves what it drafted."""
import itertools, sys
import disk as disks
from types import SimpleNamespace as Rec
from document import Refused, parse, derive, read_plan, plan_text

# ==== spec_model: Truths, Universe, Changes, Bounds

WINS = {"add_wins": True, "remove_wins": False, "locked": True}


def wins(spec, p):
    return WINS[spec.preds[p].rule]


def literals(c):
    return [(False, l) for l in c.premise] + [(True, l) for l in c.conclusion]


def values(xs, variables):
    return tuple(xs[v] for v in variables)


def literal_true(s, xs, sign, l):
    return (s(l[1], values(xs, l[2])) if l[0] == "Atom" else xs[l[1]] == xs[l[2]]) == sign


def instance_true(s, xs, c):
    return any(literal_true(s, xs, sign, l) for sign, l in literals(c))


def span_has(span, x):
    return span[0] <= x <= span[1]


def inst_sets(spec, e, p, xs):
    out = None
    for line in spec.ops[e.op].lines:
        if line[0] in ("Set", "Clear") and line[1] == p and all(i is None or span_has(e.args[i], x) for i, x in zip(line[2], xs)):
            out = line[0] == "Set"
    return out


def tuples(sizes):
    return list(itertools.product(*[range(n) for n in sizes]))


def sizes_of(spec, sorts):
    return [spec.sorts[s].size for s in sorts]


def var_sorts(c):
    return [v.sort for v in c.vars]


def atoms(spec):
    return [(p, xs) for p, pred in enumerate(spec.preds) for xs in tuples(sizes_of(spec, pred.sorts))]


def cells(spec):
    return [(n, xs) for n, num in enumerate(spec.nums) for xs in tuples(sizes_of(spec, num.sorts))]


def first_value(spec, cell):
    return spec.nums[cell[0]].init


def lower_bound(spec, cell):
    return spec.nums[cell[0]].min


def upper_bound(spec, cell):
    return spec.nums[cell[0]].max


def keys_of(spec, kind):
    return tuples(sizes_of(spec, [spec.ops[kind.a].params[i].sort for i, j in kind.key]))


def elements_at(args, places):
    return tuple(args[i][0] for i in places)


def line_total(word, spec, inst, cell):
    return sum(line[3] for line in spec.ops[inst.op].lines if line[0] == word and (line[1], elements_at(inst.args, line[2])) == cell)


def added(spec, inst, cell):
    return line_total("Add", spec, inst, cell)


def subtracted(spec, inst, cell):
    return line_total("Sub", spec, inst, cell)


def net_rise(spec, inst, cell):
    return max(0, added(spec, inst, cell) - subtracted(spec, inst, cell))


def net_fall(spec, inst, cell):
    return max(0, subtracted(spec, inst, cell) - added(spec, inst, cell))


# ==== spec_model: Breaks, Masks, Separated

def laid_over(spec, inst, s):
    def truths(p, xs):
        v = inst_sets(spec, inst, p, xs)
        return s(p, xs) if v is None else v
    return truths


def breaks_at(spec, inst, s, c, xs):
    return any(l[0] == "Atom" and inst_sets(spec, inst, l[1], values(xs, l[2])) is not None for sign, l in literals(c)) \
        and not instance_true(laid_over(spec, inst, s), xs, c)


def broken_by(spec, s, inst):
    for i, c in enumerate(spec.clauses):
        for xs in tuples(sizes_of(spec, var_sorts(c))):
            if breaks_at(spec, inst, s, c, xs):
                return (i, xs)
    return None


def is_given(xs, c):
    return any(l[0] == "Equal" and (xs[l[1]] == xs[l[2]]) == sign for sign, l in literals(c))


def is_falsified(spec, inst, xs, signed):
    sign, l = signed
    v = inst_sets(spec, inst, l[1], values(xs, l[2])) if l[0] == "Atom" else None
    return v is not None and v != sign


def falsified_places(spec, inst, xs, c):
    return [n for n, l in enumerate(literals(c)) if is_falsified(spec, inst, xs, l)]


def true_places(s, xs, c):
    return [n for n, (sign, l) in enumerate(literals(c)) if l[0] == "Atom" and s(l[1], values(xs, l[2])) == sign]


def instance_needs(spec, inst, s, i, c, xs):
    falsified = falsified_places(spec, inst, xs, c)
    if is_given(xs, c) or not falsified:
        return []
    witness = true_places(laid_over(spec, inst, s), xs, c)
    return [(("Entry", i, xs, n), ("Level", "allow")) for n in falsified] \
        + ([(("Entry", i, xs, witness[0]), ("AnyForbid", tuple(witness)))] if witness else [])


def mask_needs(spec, masks, inst, s):
    return [need for i in masks for xs in tuples(sizes_of(spec, var_sorts(spec.clauses[i]))) for need in instance_needs(spec, inst, s, i, spec.clauses[i], xs)]


def interval_place(params):
    return next((i for i, p in enumerate(params) if p.interval), len(params))


def interval_arg(spec, e):
    place = interval_place(spec.ops[e.op].params)
    return e.args[place] if place < len(e.args) else (1, 0)


# ==== spec_model: Needs, AllRights

def spends(spec, inst, r):
    if r[0] == "Low":
        return net_fall(spec, inst, r[1]) if lower_bound(spec, r[1]) is not None else 0
    if r[0] == "High":
        return net_rise(spec, inst, r[1]) if upper_bound(spec, r[1]) is not None else 0
    return 0


def creates(spec, inst, r):
    if r[0] == "Low":
        return net_rise(spec, inst, r[1]) if lower_bound(spec, r[1]) is not None else 0
    if r[0] == "High":
        return net_fall(spec, inst, r[1]) if upper_bound(spec, r[1]) is not None else 0
    return 0


def escrow_needs(spec, inst):
    return [(r, ("Count", spends(spec, inst, r))) for cell in cells(spec) for r in (("Low", cell), ("High", cell)) if spends(spec, inst, r) > 0]


def key_places(kind, op):
    return [i for i, j in kind.key] if op == kind.a else [j for i, j in kind.key] if op == kind.b else None


def key_at(kind, inst):
    places = key_places(kind, inst.op)
    return None if places is None else elements_at(inst.args, places)


def level_at(kind, op):
    return "exclusive" if kind.a == kind.b else "forbid" if op == kind.a else "allow"


def key_needs(need, inst, kinds):
    return [need(n, kind, key_at(kind, inst)) for n, kind in enumerate(kinds) if key_at(kind, inst) is not None]


def needs(setup, s, inst):
    return escrow_needs(setup.spec, inst) \
        + key_needs(lambda n, kind, key: (("Lock", n, key), ("Level", level_at(kind, inst.op))), inst, setup.plan.locks) \
        + mask_needs(setup.spec, setup.plan.masks, inst, s) \
        + key_needs(lambda n, kind, key: (("Part", n, key), ("Points", interval_arg(setup.spec, inst))), inst, setup.plan.parts)


def rights_of(setup):
    spec, plan = setup.spec, setup.plan
    return [("Low", c) for c in cells(spec) if lower_bound(spec, c) is not None] + [("High", c) for c in cells(spec) if upper_bound(spec, c) is not None] \
        + [("Lock", n, key) for n, kind in enumerate(plan.locks) for key in keys_of(spec, kind)] \
        + [("Entry", i, xs, n) for i in plan.masks for xs in tuples(sizes_of(spec, var_sorts(spec.clauses[i])))
           for n, (sign, l) in enumerate(literals(spec.clauses[i])) if l[0] == "Atom"] \
        + [("Part", n, key) for n, kind in enumerate(plan.parts) for key in keys_of(spec, kind)]


# ==== run_model: Logs, States.  A body is (Act, inst), (Out, to, right, piece) or (Accept, from, at)

def items_in(cut, logs):
    return [item for count, log in zip(cut, logs) for item in log[:count]]


def lies_within(past, cut):
    return all(a <= b for a, b in zip(past, cut))


def is_before(x, y):
    return x.index < y.deps[x.origin]


def value_of(spec, items, cell):
    acts = [i.body[1] for i in items if i.body[0] == "Act"]
    return first_value(spec, cell) + sum(net_rise(spec, a, cell) for a in acts) - sum(net_fall(spec, a, cell) for a in acts)


def truth_of(spec, items, p, xs):
    w = wins(spec, p)
    sets = [(i, inst_sets(spec, i.body[1], p, xs)) for i in items if i.body[0] == "Act"]
    winners, others = [i for i, v in sets if v is w], [i for i, v in sets if v is (not w)]
    prevails = (spec.preds[p].first == w and not others) or any(not any(is_before(x, y) for y in others) for x in winners)
    return w if prevails else not w


def truths_in(setup, logs, cut):
    kept = setup.kept.setdefault(("truths", tuple(cut)), {})
    items = []

    def truths(p, xs):
        if (p, xs) not in kept:
            if not items:
                items.extend(items_in(cut, logs))
            kept[p, xs] = truth_of(setup.spec, items, p, xs)
        return kept[p, xs]
    return truths


# ==== run_model: Rights, Points

def is_shared(r):
    return r[0] in ("Lock", "Entry")


def even_share(all_, replicas, me):
    return all_ // replicas + (1 if me < all_ % replicas else 0)


def first_count(spec, r):
    if r[0] == "Low":
        low = lower_bound(spec, r[1])
        return 0 if low is None else max(0, first_value(spec, r[1]) - low)
    if r[0] == "High":
        high = upper_bound(spec, r[1])
        return 0 if high is None else max(0, high - first_value(spec, r[1]))
    return 0


def first_total(setup, r):
    return setup.replicas if is_shared(r) else first_count(setup.spec, r)


def piece_count(piece):
    return 0 if piece[0] == "Points" else piece[1]


def out_of(counted, r, body):
    return counted(body[3]) if body[0] == "Out" and body[2] == r else 0


def out_at(logs, body):
    """The body of the item that an Accept names, if it is there."""
    log = logs[body[1]] if body[1] < len(logs) else []
    return log[body[2]].body if body[2] < len(log) else None


def accept_brings(logs, counted, body):
    out = out_at(logs, body) if body[0] == "Accept" else None
    return 0 if out is None else counted(out)


def held_count(setup, logs, me, own, r):
    if len(own) == 0:
        return even_share(first_total(setup, r), setup.replicas, me)
    at = ("count", me, len(own), r)
    if at not in setup.kept:
        def gains(body):
            return creates(setup.spec, body[1], r) if body[0] == "Act" else accept_brings(logs, lambda b: out_of(piece_count, r, b), body)

        def loses(body):
            return spends(setup.spec, body[1], r) if body[0] == "Act" else out_of(piece_count, r, body)
        setup.kept[at] = max(0, even_share(first_total(setup, r), setup.replicas, me) + sum(gains(i.body) for i in own) - sum(loses(i.body) for i in own))
    return setup.kept[at]


def points_all(setup, part):
    params = setup.spec.ops[setup.plan.parts[part].a].params
    return setup.spec.sorts[params[interval_place(params)].sort].size


def starts_with(all_, replicas, me, x):
    start = sum(even_share(all_, replicas, i) for i in range(me))
    return start <= x < start + even_share(all_, replicas, me)


def piece_point(x, piece):
    return 1 if piece[0] == "Points" and span_has(piece[1], x) else 0


def point_count(setup, logs, me, own, r, x):
    at = ("point", me, len(own), r, x)
    if at not in setup.kept:
        counted = lambda body: out_of(lambda piece: piece_point(x, piece), r, body)
        first = 1 if starts_with(points_all(setup, r[1]), setup.replicas, me, x) else 0
        setup.kept[at] = max(0, first + sum(accept_brings(logs, counted, i.body) for i in own) - sum(counted(i.body) for i in own))
    return setup.kept[at]


def points_of(span):
    return range(span[0], span[1] + 1)


def missing_of(holds, span):
    return next((x for x in points_of(span) if not holds(x)), None)


def runs_of(xs):
    runs = []
    for x in reversed(xs):
        if runs and runs[0][0] == x + 1:
            runs[0] = (x, runs[0][1])
        else:
            runs.insert(0, (x, x))
    return runs


def run_of(holds, span):
    runs = runs_of([x for x in points_of(span) if holds(x)])
    return runs[0] if runs else None


# ==== run_model: Levels

def choices(need):
    r, amount = need
    return [(r[:3] + (n,), ("Level", "forbid")) for n in amount[1]] if amount[0] == "AnyForbid" else [need]


def permits(all_, held, amount):
    if held[0] == "Count" and amount[0] == "Count":
        return amount[1] <= held[1]
    if held[0] == "Shares" and amount[0] == "Level":
        return held[1] == all_ or (held[1] > 0 and held[2] == amount[1])
    if held[0] == "Points" and amount[0] == "Points":
        return held[1] is None
    return False


def is_met(all_, holding, need):
    return any(permits(all_, holding(c), c[1]) for c in choices(need))


def first_lacking(all_, holding, needs_):
    for need in needs_:
        if not is_met(all_, holding, need):
            return (need, holding(need))
    return None


def acted_on(all_, holding, need):
    return next((c for c in choices(need) if permits(all_, holding(c), c[1])), None)


def acts_at(all_, holding, needs_, r, level):
    return any(acted_on(all_, holding, need) == (r, ("Level", level)) for need in needs_)


def goes_with(a, b):
    return a == b and a != "exclusive"


# ==== run_model: Holding

def needs_in(setup, logs, deps, inst):
    at = ("needs", tuple(deps), inst.op, tuple(inst.args))
    if at not in setup.kept:
        setup.kept[at] = needs(setup, truths_in(setup, logs, deps), inst)
    return setup.kept[at]


def shares_before(setup, logs, me, own):
    """shares_of (held_count ..) (mode_of ..)"""
    return lambda need: ("Shares", held_count(setup, logs, me, own, need[0]), mode_of(setup, logs, me, own, need[0]))


def next_mode(setup, logs, me, own, item, r):
    mode, body = mode_of(setup, logs, me, own, r), item.body
    if body[0] == "Act" and held_count(setup, logs, me, own, r) == setup.replicas:
        needed = needs_in(setup, logs, item.deps, body[1])
        holding = shares_before(setup, logs, me, own)
        return next((l for l in ("forbid", "allow") if acts_at(setup.replicas, holding, needed, r, l)), mode)
    if body[0] == "Accept" and held_count(setup, logs, me, own, r) == 0:
        out = out_at(logs, body)
        if out is not None and out[0] == "Out" and out[2] == r and out[3][0] == "Shares":
            return out[3][2]
    return mode


def mode_of(setup, logs, me, own, r):
    done = len(own)
    while done and ("mode", me, done, r) not in setup.kept:
        done -= 1
    mode = setup.kept[("mode", me, done, r)] if done else "forbid"
    for k in range(done, len(own)):
        mode = next_mode(setup, logs, me, own[:k], own[k], r)
        setup.kept[("mode", me, k + 1, r)] = mode
    return mode


def held_right(setup, logs, me, own, r, span):
    if r[0] in ("Low", "High"):
        return ("Count", held_count(setup, logs, me, own, r))
    if is_shared(r):
        return ("Shares", held_count(setup, logs, me, own, r), mode_of(setup, logs, me, own, r))
    holds = lambda x: point_count(setup, logs, me, own, r, x) > 0
    return ("Points", missing_of(holds, span), run_of(holds, span))


def held_of(setup, logs, me, own, need):
    return held_right(setup, logs, me, own, need[0], need[1][1] if need[1][0] == "Points" else (1, 0))


# ==== run_model: Wants.  A want is (right, ask), an ask is a Count, a Level or Points, like an amount

def want_of(need):
    return (need[0], ("Level", "forbid") if need[1][0] == "AnyForbid" else need[1])


def noted(wants, want):
    if any(w[0] == want[0] for w in wants):
        return [want if w[0] == want[0] else w for w in wants]
    return (wants + [want])[max(0, len(wants) - 7):]


def want_less(holding, want):
    r, ask = want
    return (r, ("Count", max(0, ask[1] - holding(want)[1]))) if ask[0] == "Count" else want


def still_wanted(all_, holding, wants):
    return [want for want in wants if not is_met(all_, holding, want)]


def shares_for(have, mode, level):
    return (1 if have > 1 else 0) if mode == level else have


def piece_for(held, ask):
    if held[0] == "Count" and ask[0] == "Count":
        gives = min(ask[1], (held[1] + 1) // 2)
        return ("Count", gives) if gives else None
    if held[0] == "Shares" and ask[0] == "Level":
        gives = shares_for(held[1], held[2], ask[1])
        return ("Shares", gives, held[2]) if gives else None
    if held[0] == "Points" and ask[0] == "Points":
        return None if held[2] is None else ("Points", held[2])
    return None


# ==== run_model: Worlds, Steps

def no_told(replicas):
    return [[0] * replicas for _ in range(replicas)]


def first_standing(replicas, stops):
    """Up, or down where its disk fails at the start."""
    p = Rec(log=[], cut=[0] * replicas, stamp=0, wants=[], told=no_told(replicas), sendings=[], up=True, pending=None, kept=[], disk=disks.Disk(stops), gate=9)
    try:
        disks.start(p.disk)
    except disks.Failed:
        p.up = False
    return p


def first_world(replicas, stops=()):
    return [first_standing(replicas, [s[1:] for s in stops if s[0] == r]) for r in range(replicas)]


def logs_of(world):
    return [p.log for p in world]


def logged(me, body, p):
    p.log.append(Rec(origin=me, index=len(p.log), deps=tuple(p.cut), body=body))
    p.cut[me] = len(p.log)


def requests(setup, world, me, inst):
    p, logs = world[me], logs_of(world)
    broken = broken_by(setup.spec, truths_in(setup, logs, p.cut), inst)
    if broken is not None:
        return ("Breaks", broken)
    lacking = first_lacking(setup.replicas, lambda need: held_of(setup, logs, me, p.log, need), needs_in(setup, logs, p.cut, inst))
    if lacking is not None:
        p.wants = noted(p.wants, want_of(lacking[0]))
        return ("Short", lacking)
    logged(me, ("Act", inst), p)
    return ("Done", len(p.log) - 1)


def sends(setup, world, me, to, number, stamp):
    p, logs = world[me], logs_of(world)
    items = p.log[p.told[to][me]:][:16]
    wants = [want_less(lambda need: held_of(setup, logs, me, p.log, need), want) for want in p.wants]
    assert number == sum(s.to == to for s in p.sendings)
    p.sendings.append(Rec(to=to, stamp=stamp, message=Rec(sender=me, number=number, cut=list(p.cut), items=items, wants=wants)))
    return ("Sent", number, len(items), len(wants))


def takes(setup, world, me, message):
    p, logs = world[me], logs_of(world)
    holding = lambda need: held_of(setup, logs, me, p.log, need)
    p.told[message.sender] = [max(a, b) for a, b in zip(p.told[message.sender], message.cut)]
    applied = []
    for item in [i for i in message.items if not i.index < p.cut[i.origin]]:
        if not lies_within(item.deps, p.cut):
            break
        p.cut[item.origin] = item.index + 1
        applied.append(item)
    accepts = [("Accept", i.origin, i.index) for i in applied if i.body[0] == "Out" and i.body[1] == me]
    for body in accepts:
        logged(me, body, p)
    p.wants = still_wanted(setup.replicas, holding, p.wants)
    gave = 0
    for want in message.wants:
        piece = piece_for(holding(want), want[1])
        if piece is not None:
            logged(me, ("Out", message.sender, want[0], piece), p)
            gave += 1
    return ("Took", message.number, len(applied), len(accepts), gave)


def forget(setup, p, up, pending):
    """What was wanted and told isn't on the disk."""
    p.wants, p.told, p.up, p.pending = [], no_told(setup.replicas), up, pending


def drafts(setup, world, me, ask, heard, stamp):
    """What a replica that is up would answer if its disk never failed, and the items that it would keep."""
    p = world[me]
    old, others = len(p.log), list(p.cut)
    if ask[0] == "Do":
        outcome = requests(setup, world, me, ask[1])
    elif ask[0] == "Send":
        outcome = sends(setup, world, me, ask[1], ask[2], stamp)
    elif ask[0] == "Recover":
        outcome = ("Up",)
    elif ask[0] == "Crash":
        forget(setup, p, False, None)
        outcome = ("Stopped",)
    else:
        outcome = ("Idle",) if heard is None else ("Unsent",) if heard.message is None else takes(setup, world, me, heard.message)
    applied = [i for r, log in enumerate(logs_of(world)) if r != me for i in log[others[r]:p.cut[r]]]
    return outcome, applied + p.log[old:]


def answers_up(setup, world, me, ask, heard, stamp):
    p = world[me]
    old = (list(p.log), list(p.cut))
    outcome, items = drafts(setup, world, me, ask, heard, stamp)
    if not items:
        return outcome
    text = disks.batch_bytes(setup.replicas, items)
    try:
        p.gate = disks.append(p.disk, p.gate, text)
        p.kept.append(text)
    except disks.Failed:
        p.log, p.cut = old
        forget(setup, p, False, (text, items))
        setup.kept.clear()
        return ("DiskBroken",)
    return outcome


def recovers(setup, me, p):
    p.disk.restart()
    try:
        found, gate = disks.start(p.disk)
    except disks.Failed:
        return ("DiskBroken",)
    outcome = ("Same",) if p.pending is None else ("Lost",)
    if found != p.kept:
        text, items = p.pending
        assert found == p.kept + [text]
        p.kept.append(text)
        p.log += [i for i in items if i.origin == me]
        for i in items:
            p.cut[i.origin] = i.index + 1
        outcome = ("Kept",)
    p.gate = gate
    forget(setup, p, True, None)
    return outcome


def answers_down(setup, me, p, ask, stamp):
    if ask[0] == "Recover":
        return recovers(setup, me, p)
    if ask[0] == "Send" and ask[2] is not None:
        p.sendings.append(Rec(to=ask[1], stamp=stamp, message=None))
    return ("Down",)


def step(setup, world, me, ask):
    """One step; the entry is (stamp, replica, ask, outcome). Under a schedule every send and take has a number; else it has
    None where no message is put or got, and such a send is none that a take may name."""
    p = world[me]
    heard = [s for s in world[ask[1]].sendings if s.to == me][ask[2]] if p.up and ask[0] == "Take" and ask[2] is not None else None
    stamp = max(p.stamp, heard.stamp if heard else 0) + 1
    outcome = answers_up(setup, world, me, ask, heard, stamp) if p.up else answers_down(setup, me, p, ask, stamp)
    p.stamp = stamp
    return (stamp, me, ask, outcome)


def merged(entries):
    return sorted(entries, key=lambda e: e[:2])


def run(setup, schedule):
    world = first_world(setup.replicas, setup.stops)
    return merged([step(setup, world, me, ask) for me, ask in schedule]), world


# ==== run_model: Finals, Trace

def tuple_text(xs):
    return "(" + ",".join(map(str, xs)) + ")"


def cell_text(spec, cell):
    return spec.nums[cell[0]].name + tuple_text(cell[1])


def inst_text(spec, inst):
    op = spec.ops[inst.op]
    return op.name + "(" + ",".join(f"{lo}-{hi}" if p.interval else str(lo) for p, (lo, hi) in zip(op.params, inst.args)) + ")"


def right_text(spec, r):
    if r[0] in ("Low", "High"):
        return r[0].lower() + " " + cell_text(spec, r[1])
    if r[0] == "Entry":
        return f"mask {r[1]}{tuple_text(r[2])} {r[3]}"
    return f"{r[0].lower()} {r[1]}{tuple_text(r[2])}"


def shares_text(shares, mode):
    return f"{shares} {mode}" if shares else "0"


def lacking_text(spec, lacking):
    (r, amount), held = lacking
    missing = f" {held[1]}" if held[0] == "Points" and held[1] is not None else ""
    need = {"Count": lambda: str(amount[1]), "Level": lambda: amount[1], "Points": lambda: "1", "AnyForbid": lambda: "forbid"}[amount[0]]()
    have = {"Count": lambda: str(held[1]), "Shares": lambda: shares_text(held[1], held[2]), "Points": lambda: "0"}[held[0]]()
    return f"short {right_text(spec, r)}{missing} need {need} have {have}"


def ask_text(spec, ask):
    if ask[0] == "Do":
        return "do " + inst_text(spec, ask[1])
    return ask[0].lower() if len(ask) == 1 else f"{ask[0].lower()} r{ask[1]} {'-' if ask[2] is None else ask[2]}"


def entry_text(spec, entry):
    stamp, me, ask, o = entry
    got = {"Done": lambda: f"done {o[1]}", "Breaks": lambda: f"breaks {o[1][0]}{tuple_text(o[1][1])}", "Short": lambda: lacking_text(spec, o[1]),
           "Sent": lambda: f"entries {o[2]} wants {o[3]}", "Took": lambda: f"applied {o[2]} accepted {o[3]} gave {o[4]}",
           "DiskBroken": lambda: "broken"}.get(o[0], lambda: o[0].lower())()
    return f"{stamp} r{me} {ask_text(spec, ask)} : {got}\n"


def hold_lines(setup, logs, me, own):
    for r in rights_of(setup):
        if r[0] in ("Low", "High"):
            have = held_count(setup, logs, me, own, r)
            if have:
                yield f"{right_text(setup.spec, r)} {have}"
        elif is_shared(r):
            have, mode = held_count(setup, logs, me, own, r), mode_of(setup, logs, me, own, r)
            if not (have == 1 and mode == "forbid"):
                yield f"{right_text(setup.spec, r)} {shares_text(have, mode)}"
        else:
            every = range(points_all(setup, r[1]))
            first = [x for x in every if starts_with(len(every), setup.replicas, me, x)]
            have = [x for x in every if point_count(setup, logs, me, own, r, x) > 0]
            if have != first:
                yield right_text(setup.spec, r) + ("".join(f" {lo}-{hi}" for lo, hi in runs_of(have)) or " -")


def final_text(setup, logs, me, p):
    if not p.up:
        return f"r{me} down\n"
    spec, items, s = setup.spec, items_in(p.cut, logs), truths_in(setup, logs, p.cut)
    lines = ["cut" + "".join(f" {n}" for n in p.cut)]
    lines += [f"true {spec.preds[q].name}{tuple_text(xs)}" for q, xs in atoms(spec) if s(q, xs)]
    lines += [f"num {cell_text(spec, cell)} {value_of(spec, items, cell)}" for cell in cells(spec)]
    lines += ["hold " + line for line in hold_lines(setup, logs, me, p.log)]
    return "".join(f"r{me} {line}\n" for line in lines)


def trace_text(setup, entries, world):
    return "".join(entry_text(setup.spec, e) for e in entries) + "".join(final_text(setup, logs_of(world), me, p) for me, p in enumerate(world))


# ==== run_model: Balance, Shares, Concurrent, Allowed, Sound

def is_accepted(items, out):
    return any(i.body[0] == "Accept" and i.body[1:] == (out.origin, out.index) for i in items)


def consistent_cuts(logs):
    for cut in itertools.product(*[range(len(log) + 1) for log in logs]):
        if all(lies_within(log[n - 1].deps, cut) for n, log in zip(cut, logs) if n):
            yield cut


def keeps_cut(setup, logs, cut):
    """What fails of KeepsCut in this cut."""
    spec, items, n = setup.spec, items_in(cut, logs), range(len(logs))
    own = [logs[i][:cut[i]] for i in n]
    flying = [i for i in items if i.body[0] == "Out" and not is_accepted(items, i)]
    acts = [i.body[1] for i in items if i.body[0] == "Act"]
    for r in rights_of(setup):
        if r[0] == "Part":
            for x in range(points_all(setup, r[1])):
                have = [point_count(setup, logs, i, own[i], r, x) for i in n]
                if sum(have) + sum(out_of(lambda p: piece_point(x, p), r, i.body) for i in flying) != 1 or sum(h > 0 for h in have) > 1:
                    yield "StandsOnce", r, x
            continue
        have = [held_count(setup, logs, i, own[i], r) for i in n]
        if sum(have) + sum(out_of(piece_count, r, i.body) for i in flying) + sum(spends(spec, a, r) for a in acts) \
                != first_total(setup, r) + sum(creates(spec, a, r) for a in acts):
            yield "IsBalanced", r
        if is_shared(r):
            modes = {mode_of(setup, logs, i, own[i], r) for i in n if have[i]} | {i.body[3][2] for i in flying if i.body[2] == r}
            if len(modes) != 1:
                yield "HasOneMode", r
            levels = [[l for l in ("forbid", "allow", "exclusive") if permits(setup.replicas, ("Shares", have[i], mode_of(setup, logs, i, own[i], r)), ("Level", l))] for i in n]
            if any(not goes_with(a, b) for i in n for j in n if i != j for a in levels[i] for b in levels[j]):
                yield "AreCompatible", r
    for cell in cells(spec):
        value, low, high = value_of(spec, items, cell), lower_bound(spec, cell), upper_bound(spec, cell)
        if (low is not None and value < low) or (high is not None and value > high):
            yield "KeepsBounds", cell, value
    s = truths_in(setup, logs, cut)
    for i, c in enumerate(spec.clauses):
        for xs in tuples(sizes_of(spec, var_sorts(c))):
            if not instance_true(s, xs, c):
                yield "ClausesHold", i, xs


def keeps_order(setup, logs):
    """What fails of KeepsOrder, and of AllWereAllowed."""
    acts = [i for log in logs for i in log if i.body[0] == "Act"]
    facts = []
    for x in acts:
        own, needed = logs[x.origin][:x.index], needs_in(setup, logs, x.deps, x.body[1])
        levels = {acted_on(setup.replicas, shares_before(setup, logs, x.origin, own), need) for need in needed} - {None}
        points = {(need[0], p) for need in needed if need[1][0] == "Points" for p in points_of(need[1][1])}
        facts.append(([(c[0], c[1][1]) for c in levels], points))
        if first_lacking(setup.replicas, lambda need: held_of(setup, logs, x.origin, own, need), needed) is not None \
                or broken_by(setup.spec, truths_in(setup, logs, x.deps), x.body[1]) is not None:
            yield "MayAct", x.origin, x.index
    for (x, (lx, px)), (y, (ly, py)) in itertools.combinations(zip(acts, facts), 2):
        if x.origin == y.origin or is_before(x, y) or is_before(y, x):
            continue
        if any(r == q and not goes_with(a, b) for r, a in lx for q, b in ly):
            yield "LevelsClash", (x.origin, x.index), (y.origin, y.index)
        if px & py:
            yield "NeedOnePoint", (x.origin, x.index), (y.origin, y.index)
        for p, xs in atoms(setup.spec):
            if setup.spec.preds[p].rule == "locked":
                v, w = inst_sets(setup.spec, x.body[1], p, xs), inst_sets(setup.spec, y.body[1], p, xs)
                if v is not None and w is not None and v != w:
                    yield "AreOpposite", (x.origin, x.index), (y.origin, y.index)


def unsound(setup, world):
    """What fails of IsSound in this world; and each Out or want of a right that the setup doesn't have (RightFits)."""
    logs, rights = logs_of(world), set(rights_of(setup))
    for r in [i.body[2] for log in logs for i in log if i.body[0] == "Out"] + [w[0] for p in world for w in p.wants]:
        if r not in rights:
            yield ("RightFits", r)
    if any(i.body[0] == "Out" and (i.body[1] == i.origin or (i.body[3][0] == "Points" and i.body[3][1][0] > i.body[3][1][1])) for log in logs for i in log):
        yield ("Out to its own replica, or of no point",)
    for cut in consistent_cuts(logs):
        for fault in keeps_cut(setup, logs, cut):
            yield (cut,) + fault
    yield from keeps_order(setup, logs)
    named = [i.body[1:] for log in logs for i in log if i.body[0] == "Accept"]
    if len(set(named)) != len(named):
        yield ("AcceptsOnce",)


def setup_for(doc, plan=None):
    """The setup of a document, with the derived plan or one that is given as text, or Refused."""
    found = derive(doc.spec) if plan is None else read_plan(doc.spec, plan)
    return Rec(spec=doc.spec, plan=found, replicas=doc.replicas, stops=doc.stops, kept={})


def setup_of(data, plan=None):
    """The setup and schedule of a document's bytes, or Refused."""
    doc = parse(data)
    if doc.first_client_line:
        raise Refused(3, f"line {doc.first_client_line}: out of place")
    return setup_for(doc, plan), [(me, ask) for me, ask, line in doc.schedule]


def simulate(data, plan=None):
    """Status and text."""
    try:
        setup, schedule = setup_of(data, plan)
        return 0, trace_text(setup, *run(setup, schedule))
    except Refused as refused:
        return refused.status, refused.text + "\n"


def main():
    words = [w for w in sys.argv[1:] if not w.startswith("--")]
    if len(words) not in (1, 2):
        sys.exit(__doc__)
    data = sys.stdin.buffer.read() if words[0] == "-" else open(words[0], "rb").read()
    plan = open(words[1]).read() if len(words) == 2 else None
    status = 0
    try:
        setup, schedule = setup_of(data, plan)
        if "--plan" in sys.argv:
            print(plan_text(setup.spec, setup.plan), end="")
            return
        entries, world = run(setup, schedule)
        print(trace_text(setup, entries, world), end="")
        if "--sound" in sys.argv:
            for fault in unsound(setup, world):
                print("unsound:", fault, file=sys.stderr)
    except Refused as refused:
        print(refused.text)
        status = refused.status
    sys.exit(status)


if __name__ == "__main__":
    main()
