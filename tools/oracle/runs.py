#!/usr/bin/env python3
"""Lets a program run random documents with clients, and audits each trace.

usage: runs.py PROGRAM SEED COUNT

Each document goes to the input of `PROGRAM run`. What isn't legal is printed with its seed; the document and what was printed
are kept in files that the line names. Ends with 1 where something isn't legal."""
import os, random, subprocess, sys, tempfile
import audit
from compare import BOOK, MASK, TWO, random_call, random_spec, random_stops
from document import Refused, case_count, parse
from running import setup_of

SHOP = """sort item 2
num stock(item) init 9 min 0 max 12
op buy(i:item)
sub 1 stock(i)
op refill(i:item)
add 2 stock(i)
op swap(i:item,j:item)
sub 1 stock(i)
add 1 stock(j)
"""


def few_cases(spec):
    try:
        return case_count(parse((spec + "replicas 1\n").encode()).spec) <= 500
    except Refused:
        return False


def specification(rnd):
    chosen = rnd.choice([SHOP, BOOK, MASK, TWO, None, None])
    while chosen is None:
        text = "\n".join(random_spec(rnd)[0]) + "\n"
        chosen = text if few_cases(text) else None
    return chosen


def client_lines(rnd, spec, replicas):
    """Couriers with at most 200 turns in all, and clients with some asks each, which come in any order."""
    lines = [f"turns {rnd.choice([t for t in (0, 1, 2, 3, 5, 8, 16, 30) if t * replicas <= 200])}"] if rnd.random() < 0.9 else []
    clients, crashes = rnd.randint(0, 12), rnd.random() < 0.4
    lines += [f"client {c} at {rnd.randrange(replicas)}" for c in range(clients)]
    for _ in range(rnd.randint(0, 5 * clients)):
        stops = crashes and rnd.random() < 0.25
        lines.append(f"ask {rnd.randrange(clients)} {rnd.choice(['crash', 'recover', 'recover']) if stops else random_call(rnd, spec)}")
    return lines


def document(seed):
    rnd = random.Random(f"run {seed}")
    head, replicas = specification(rnd), rnd.choice([1, 2, 2, 3, 3, 4, 5, 6, 7, 8])
    lines = [f"replicas {replicas}"] + (random_stops(rnd, replicas) if rnd.random() < 0.4 else [])
    return head + "\n".join(lines + client_lines(rnd, parse((head + "replicas 1\n").encode()).spec, replicas)) + "\n"


def complaint(text, status, out):
    """What is wrong with a program's answer to a document; None where nothing is."""
    try:
        setup, doc = setup_of(text.encode())
    except Refused as refused:
        wanted = (refused.status, refused.text + "\n")
        return None if (status, out) == wanted else f"it has to be refused with status {wanted[0]}: {refused.text}"
    if status != 0:
        return f"status {status}"
    found = audit.fault(setup, doc, out)
    return None if found is None else f"line {found[0]}: {found[1]}"


def keep(folder, name, text, out):
    for end, content in (("txt", text), ("trace", out)):
        with open(os.path.join(folder, f"{name}.{end}"), "w", encoding="latin-1") as file:
            file.write(content)
    return os.path.join(folder, f"{name}.txt")


def main():
    if len(sys.argv) != 4:
        sys.exit(__doc__)
    program, seed, count = os.path.abspath(sys.argv[1]), int(sys.argv[2]), int(sys.argv[3])
    legal, folder = 0, None
    for k in range(seed, seed + count):
        text = document(k)
        ran = subprocess.run([program, "run"], input=text.encode(), capture_output=True)
        out = ran.stdout.decode("latin-1")
        why = complaint(text, ran.returncode, out)
        if why is None:
            legal += 1
            continue
        folder = folder or tempfile.mkdtemp()
        print(f"document {k}: {why} ({keep(folder, str(k), text, out)})")
    print(f"{legal} of {count} legal")
    return 0 if legal == count else 1


if __name__ == "__main__":
    sys.exit(main())
