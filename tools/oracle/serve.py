#!/usr/bin/env python3
"""Plays the command `run`: clients and couriers take their turns in a random order.

usage: serve.py DOCUMENT SEED

Prints what `run` may print, and ends with its status. DOCUMENT is a file, or - for the input. Since a turn meets at most one
link, and links and desks serve one after another, each run of threads is one such order of turns."""
import random, sys
import oracle
from document import Refused
from running import Run, client_asks, courier_turns, others, setup_of


def threads_of(doc):
    """The turns of each thread, as (replica, ask) of a client, or (replica, (kind, peer)) of a courier."""
    clients = [[(home, ask) for ask in client_asks(doc, c)] for c, home in enumerate(doc.homes)]
    couriers = [[(me, turn) for turn in courier_turns(doc, me)] for me in range(doc.replicas)]
    return [thread for thread in clients + couriers if thread]


def orders(rnd, threads):
    """All turns in a random order, in which some threads are much faster than others."""
    left = [(rnd.choice([1, 3, 10, 100]), list(thread)) for thread in threads]
    while left:
        at = rnd.choices(range(len(left)), [speed for speed, thread in left])[0]
        yield left[at][1].pop(0)
        if not left[at][1]:
            left.pop(at)


def closing_takes(run, me):
    for peer in others(run.setup.replicas, me):
        for _ in range(run.waiting(peer, me)):
            yield run.step(me, run.numbered(me, "Take", peer))


def serve(setup, doc, rnd):
    """The trace of one run."""
    run, entries = Run(setup), []
    for me, ask in orders(rnd, threads_of(doc)):
        if ask[0] in ("Send", "Take"):
            kind, peer = ask
            ask = run.numbered(me, kind, peer, kind == "Take" and run.waiting(peer, me) == 0)
        entries.append(run.step(me, ask))
    for me in range(doc.replicas):
        entries += closing_takes(run, me)
    return oracle.trace_text(setup, oracle.merged(entries), run.world)


def main():
    if len(sys.argv) != 3:
        sys.exit(__doc__)
    data = sys.stdin.buffer.read() if sys.argv[1] == "-" else open(sys.argv[1], "rb").read()
    try:
        print(serve(*setup_of(data), random.Random(sys.argv[2])), end="")
    except Refused as refused:
        print(refused.text)
        sys.exit(refused.status)


if __name__ == "__main__":
    main()
