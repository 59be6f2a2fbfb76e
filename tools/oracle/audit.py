#!/usr/bin/env python3
"""Says whether a trace of the command `run` is one legal run of its document.

usage: audit.py DOCUMENT TRACE

Prints `legal` and ends with 0; or prints the first line that isn't legal and why, and ends with 1. A document that is refused
gives that refusal and its status. The lines are replayed as they stand. Clients and couriers are free in the order of their
turns, and a courier in whether it finds its link empty; all else of a line has to be what the definitions give, over disks
that stop where the document says. In each state in which a step leaves a replica, and at the end over all logs together,
every clause and bound has to hold and all rights to balance. At the end there has to be an order in time of all turns in
which each `idle` take found its link empty."""
import itertools, re, sys
from collections import Counter
from graphlib import CycleError, TopologicalSorter
import oracle
from document import Refused
from running import Run, client_asks, courier_turns, others, setup_of

NUMBER = "(0|[1-9][0-9]*)"
STEP = re.compile(f"{NUMBER} r([0-7]) (.+) : (.+)")
MESSAGE = re.compile(f"(send|take) r([0-7]) (-|{NUMBER})")


class Illegal(Exception):
    """Why a line isn't legal."""


def check(test, why):
    if not test:
        raise Illegal(why)


def is_step(line):
    return line[:1].isdigit()


def messages_put(steps):
    """How many messages the trace puts on each link (from, to)."""
    put = Counter()
    for me, text in steps:
        message = MESSAGE.fullmatch(text)
        if message and message[1] == "send" and message[3] != "-":
            put[me, int(message[2])] += 1
    return put


def by_length(lists):
    return tuple(sorted(filter(None, lists), key=lambda asks: (len(asks), asks)))


def ways_after(way, text):
    """What the clients may have left to ask once one of them asked this; that of the longest list stands last."""
    for at, asks in enumerate(way):
        if asks[0] == text:
            yield by_length(way[:at] + (asks[1:],) + way[at + 1:])


def first_past_its_count(lists, texts):
    """How many of the asks come before one that comes more often than in all lists together."""
    left = Counter(text for asks in lists for text in asks)
    for at, text in enumerate(texts):
        left[text] -= 1
        if left[text] < 0:
            return at
    return len(texts)


def asked_in_turn(lists, texts):
    """How many of the asks, from the first on, some interleaving of the lists begins with. A way is what the lists may have
    left; since most ways end well, one is followed as far as it goes before another is tried."""
    most, furthest = first_past_its_count(lists, texts), 0
    total = sum(map(len, lists))
    open_, seen = [by_length(lists)], set()
    while open_ and furthest < most:
        way = open_.pop()
        at = total - sum(map(len, way))
        furthest = max(furthest, at)
        if at < most:
            fresh = [left for left in ways_after(way, texts[at]) if left not in seen]
            seen.update(fresh)
            open_ += fresh
    return furthest


class Due:
    """What one replica has still to be asked: by its clients, by its courier, and then, for each message that was left on the
    links to it, by a closing take."""

    def __init__(self, setup, doc, me, texts):
        lists = [client_asks(doc, c) for c, home in enumerate(doc.homes) if home == me]
        self.asks = {oracle.ask_text(setup.spec, ask): ask for asks in lists for ask in asks}
        self.total, self.asked = sum(map(len, lists)), 0
        self.in_turn = asked_in_turn([tuple(oracle.ask_text(setup.spec, ask) for ask in asks) for asks in lists], texts)
        self.turns, self.closing = courier_turns(doc, me), None

    def clients_are_done(self):
        return self.asked == self.total

    def client_ask(self, text):
        check(self.asked < self.in_turn, "no client of this replica asks this next")
        self.asked += 1
        return self.asks[text]

    def courier_turn(self, kind, peer):
        due = self.turns.pop(0)
        check((kind, peer) == due, f"its courier's next turn is {due[0].lower()} r{due[1]}")

    def closing_take(self, kind, peer, left):
        """A take behind all turns; `left` are the peers with messages left, one for each message."""
        check(kind == "Take", "its courier has no turn left")
        check(self.clients_are_done(), "its courier has no turn left, and its clients aren't done")
        if self.closing is None:
            self.closing = left
        check(self.closing, "no message is left for a closing take")
        due = self.closing.pop(0)
        check(peer == due, f"the next closing take is of r{due}")

    def missing(self, left):
        """What never came."""
        if not self.clients_are_done():
            return f"{self.total - self.asked} asks of its clients"
        if self.turns:
            return f"its courier's turn {self.turns[0][0].lower()} r{self.turns[0][1]}"
        rest = left if self.closing is None else self.closing
        return f"a closing take of r{rest[0]}" if rest else None


class Times:
    """What has to come before what in time: steps, by their lines, at their replicas; a message's put before its get; and an
    idle take before the put of the message that it would have found."""

    def __init__(self):
        self.before, self.last, self.puts, self.idles = {}, {}, {}, []

    def add(self, line, entry, got):
        stamp, me, ask, outcome = entry
        self.before[line] = {self.last[me]} if me in self.last else set()
        self.last[me] = line
        if ask[0] == "Send" and ask[2] is not None:
            self.puts[me, ask[1], ask[2]] = line
        if ask[0] == "Take" and ask[2] is not None:
            self.before[line].add(self.puts[ask[1], me, ask[2]])
        if outcome == ("Idle",):
            self.idles.append((line, (ask[1], me, got[ask[1], me])))

    def out_of_order(self):
        """The first idle take of some that no order allows, or None."""
        for line, message in self.idles:
            if message in self.puts:
                self.before[self.puts[message]].add(line)
        try:
            TopologicalSorter(self.before).prepare()
        except CycleError as cycle:
            return min(line for line, message in self.idles if line in cycle.args[1])


class Replay:
    """A trace as far as it is replayed."""

    def __init__(self, setup, doc, lines):
        found = [step for step in map(STEP.fullmatch, filter(is_step, lines)) if step]
        steps = [(int(step[2]), step[3]) for step in found]
        self.setup, self.run, self.put = setup, Run(setup), messages_put(steps)
        requests = [[text for r, text in steps if r == me and not MESSAGE.fullmatch(text)] for me in range(doc.replicas)]
        self.due = [Due(setup, doc, me, texts) for me, texts in enumerate(requests)]
        self.place, self.times = (0, 0), Times()

    def left(self, me):
        """The peers with messages that the replica hasn't got, one for each message."""
        return [peer for peer in others(self.setup.replicas, me) for _ in range(self.put[peer, me] - self.run.got[peer, me])]

    def message_ask(self, me, kind, peer, number):
        """The ask of a send or take, and whether it is a closing take."""
        due = self.due[me]
        is_closing = not due.turns
        if is_closing:
            due.closing_take(kind, peer, self.left(me))
        else:
            due.courier_turn(kind, peer)
        is_idle = kind == "Take" and number == "-" and self.run.world[me].up
        check(not (is_idle and is_closing), "a closing take isn't idle")
        if kind == "Take" and number != "-":
            check(self.run.waiting(peer, me) > 0, "no message is on this link")
        return self.run.numbered(me, kind, peer, is_idle), is_closing

    def step(self, line, text):
        found = STEP.fullmatch(text)
        check(found, "no step")
        stamp, me = int(found[1]), int(found[2])
        check(me < self.setup.replicas, "no such replica")
        check(self.place < (stamp, me), "stands behind a step of a greater stamp, or of the same and a greater replica")
        self.place, is_closing = (stamp, me), False
        message = MESSAGE.fullmatch(found[3])
        if message:
            ask, is_closing = self.message_ask(me, message[1].capitalize(), int(message[2]), message[3])
        else:
            ask = self.due[me].client_ask(found[3])
        self.answer(line, text, me, ask, is_closing)

    def answer(self, line, text, me, ask, is_closing):
        before = list(self.run.world[me].cut)
        entry = self.run.step(me, ask)
        wanted = oracle.entry_text(self.setup.spec, entry)
        check(text + "\n" == wanted, f"it has to be: {wanted.rstrip()}")
        if not is_closing:
            self.times.add(line, entry, self.run.got)
        if self.run.world[me].cut != before:
            self.keeps(self.run.world[me].cut)

    def keeps(self, cut):
        """The logs up to this cut keep what every state keeps."""
        found = next(oracle.keeps_cut(self.setup, oracle.logs_of(self.run.world), cut), None)
        check(found is None, f"the state at {cut} is unsound: {found}")

    def end(self):
        self.keeps([len(log) for log in oracle.logs_of(self.run.world)])
        for me, due in enumerate(self.due):
            missing = due.missing(self.left(me))
            check(missing is None, f"before it r{me} lacks {missing}")

    def states(self):
        logs = oracle.logs_of(self.run.world)
        return "".join(oracle.final_text(self.setup, logs, me, p) for me, p in enumerate(self.run.world)).split("\n")


def unlike(wanted, line):
    """Why a line of the states isn't the one that it has to be."""
    if line is None:
        return "the line before it has no end"
    return f"it has to be: {wanted}" if wanted else "the states end before it"


def fault(setup, doc, trace):
    """The first line that isn't legal, from 1, and why; None of a legal trace."""
    lines = trace.split("\n")
    steps = next((n for n, line in enumerate(lines) if not is_step(line)), len(lines))
    replay, number = Replay(setup, doc, lines), 0
    try:
        for number, line in enumerate(lines[:steps], 1):
            replay.step(number, line)
        number = steps + 1
        replay.end()
        for number, (wanted, line) in enumerate(itertools.zip_longest(replay.states(), lines[steps:]), steps + 1):
            check(line == wanted, unlike(wanted, line))
    except Illegal as illegal:
        return number, str(illegal)
    idle = replay.times.out_of_order()
    return None if idle is None else (idle, "in every order in time of the turns a message is there before it")


def main():
    if len(sys.argv) != 3:
        sys.exit(__doc__)
    try:
        setup, doc = setup_of(open(sys.argv[1], "rb").read())
    except Refused as refused:
        print(refused.text)
        sys.exit(refused.status)
    found = fault(setup, doc, open(sys.argv[2], encoding="latin-1", newline="").read())
    print("legal" if found is None else f"line {found[0]}: {found[1]}")
    sys.exit(0 if found is None else 1)


if __name__ == "__main__":
    main()
