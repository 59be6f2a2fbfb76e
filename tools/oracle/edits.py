#!/usr/bin/env python3
"""Tests the audit: traces that serve.py plays have to be legal, and slips in them have to be found.

usage: edits.py SEED COUNT [EDITS]

Plays one run of each of COUNT random documents and audits its trace; then makes EDITS edits of each kind in it, 2 where no
number is given, and audits each. Prints how many were refused, by kind, and each edited trace that wasn't. Ends with 1 where a
trace was refused or an edited one wasn't. Two kinds may make the trace of another run, so of these the refused are only
counted: two steps of a replica change places, and an idle take is dropped, so that a closing take becomes its courier's."""
import random, re, sys
from collections import Counter
import audit
from runs import document
from running import setup_of
from serve import serve

ANSWERS = ["down", "idle", "broken", "up", "same", "kept", "lost", "stopped", "unsent", "full",
           "done 0", "entries 0 wants 0", "applied 0 accepted 0 gave 0"]
PART = re.compile(r"([0-9]+ r[0-9]) (.*) : (.*)")
IDLE = r".* take r[0-9] - : idle"


def places(lines, pattern):
    return [n for n, line in enumerate(lines) if re.fullmatch(pattern, line)]


def without(rnd, lines, found):
    at = rnd.choice(found)
    return lines[:at] + lines[at + 1:]


def dropped(rnd, lines):
    """A line other than an idle take is dropped."""
    return without(rnd, lines, [n for n, line in enumerate(lines) if not re.fullmatch(IDLE, line)])


def forgotten(rnd, lines):
    """An idle take is dropped."""
    found = places(lines, IDLE)
    return without(rnd, lines, found) if found else lines


def doubled(rnd, lines):
    at = rnd.randrange(len(lines))
    return lines[:at] + lines[at:at + 1] + lines[at:]


def swapped(rnd, lines):
    a = rnd.randrange(len(lines))
    b = rnd.choice([a + 1, rnd.randrange(len(lines))]) % len(lines)
    out = list(lines)
    out[a], out[b] = out[b], out[a]
    return out


def renumbered(rnd, lines):
    """One number of one line is another."""
    at = rnd.randrange(len(lines))
    number = rnd.choice(list(re.finditer("[0-9]+", lines[at])))
    other = rnd.choice([int(number[0]) + 1, max(0, int(number[0]) - 1), rnd.randrange(10)])
    return lines[:at] + [lines[at][:number.start()] + str(other) + lines[at][number.end():]] + lines[at + 1:]


def idled(rnd, lines):
    """A take that got a message is said to have found none."""
    found = places(lines, r".* take r[0-9] [0-9]+ : .*")
    if not found:
        return lines
    at = rnd.choice(found)
    return lines[:at] + [re.sub(r"[0-9]+ : .*", "- : idle", lines[at])] + lines[at + 1:]


def served(rnd, lines):
    """A take that found no message is said to have got one."""
    found = places(lines, IDLE)
    if not found:
        return lines
    at = rnd.choice(found)
    return lines[:at] + [lines[at].replace("- : idle", f"{rnd.choice([0, 0, 1, 2])} : applied 0 accepted 0 gave 0")] + lines[at + 1:]


def answered(rnd, lines):
    """A step has another answer."""
    found = places(lines, PART)
    if not found:
        return lines
    at = rnd.choice(found)
    return lines[:at] + [PART.sub(rf"\1 \2 : {rnd.choice(ANSWERS)}", lines[at])] + lines[at + 1:]


def moved(rnd, lines):
    """A step stands under another replica."""
    found = places(lines, PART)
    if not found:
        return lines
    at = rnd.choice(found)
    return lines[:at] + [re.sub(" r[0-9]", f" r{rnd.randrange(8)}", lines[at], count=1)] + lines[at + 1:]


def exchanged(rnd, lines):
    """Two steps of one replica change places, but for their stamps."""
    found = places(lines, PART)
    pairs = [(a, b) for a in found for b in found if a < b and lines[a].split()[1] == lines[b].split()[1]]
    if not pairs:
        return lines
    (a, b), out = rnd.choice(pairs), list(lines)
    for to, of in ((a, b), (b, a)):
        out[to] = PART.sub(r"\1", lines[to]) + PART.sub(r" \2 : \3", lines[of])
    return out


MAY_BE_ANOTHER = [exchanged, forgotten]
KINDS = [dropped, doubled, swapped, renumbered, idled, served, answered, moved] + MAY_BE_ANOTHER


def main():
    if len(sys.argv) not in (3, 4):
        sys.exit(__doc__)
    seed, count, edits = int(sys.argv[1]), int(sys.argv[2]), int((sys.argv + ["2"])[3])
    legal, made, refused, bad = 0, Counter(), Counter(), False
    for k in range(seed, seed + count):
        rnd = random.Random(f"edits {k}")
        setup, doc = setup_of(document(k).encode())
        trace = serve(setup, doc, rnd)
        lines = trace.split("\n")[:-1]
        tried = lambda text: (setup.kept.clear(), audit.fault(setup, doc, text))[1]
        found = tried(trace)
        legal += found is None
        if found is not None:
            print(f"document {k}: line {found[0]}: {found[1]}")
        for kind in KINDS:
            for _ in range(edits):
                other = "\n".join(kind(rnd, lines)) + "\n"
                if other == trace:
                    continue
                made[kind] += 1
                found = tried(other)
                refused[kind] += found is not None
                if found is None and kind not in MAY_BE_ANOTHER:
                    bad = True
                    print(f"document {k}: {kind.__name__} wasn't found:\n{other}")
    print(f"{legal} of {count} traces legal")
    for kind in KINDS:
        print(f"{kind.__name__}: {refused[kind]} of {made[kind]} refused")
    return 1 if bad or legal < count else 0


if __name__ == "__main__":
    sys.exit(main())
