"""What the command `run` adds to the steps of oracle.py: clients with their homes, couriers with their turns, and links."""
from collections import Counter
import oracle
from document import Refused, parse


def setup_of(data, plan=None):
    """The setup and the document of a document's bytes, or Refused."""
    doc = parse(data)
    if doc.schedule:
        raise Refused(3, f"line {doc.schedule[0][2]}: out of place")
    return oracle.setup_for(doc, plan), doc


def others(replicas, me):
    return [i for i in range(replicas) if i != me]


def client_asks(doc, client):
    return [ask for c, ask in doc.asks if c == client]


def courier_turns(doc, me):
    """What a replica's courier does, as (kind, peer)."""
    peers = others(doc.replicas, me)
    return [("Send" if t % 2 else "Take", peers[t // 2 % len(peers)]) for t in range(doc.turns or 0)] if peers else []


class Run:
    """The world of a run, and for each link (from, to) how many messages were got on it."""

    def __init__(self, setup):
        self.setup, self.world, self.got = setup, oracle.first_world(setup.replicas, setup.stops), Counter()

    def put(self, sender, receiver):
        """How many messages were put on a link."""
        return sum(s.to == receiver for s in self.world[sender].sendings)

    def waiting(self, sender, receiver):
        """How many messages are on a link."""
        return self.put(sender, receiver) - self.got[sender, receiver]

    def numbered(self, me, kind, peer, is_idle=False):
        """The ask of a send or take, with the number of the message that is put or got, or None."""
        if is_idle or not self.world[me].up:
            return (kind, peer, None)
        return (kind, peer, self.put(me, peer) if kind == "Send" else self.got[peer, me])

    def step(self, me, ask):
        if ask[0] == "Take" and ask[2] is not None:
            self.got[ask[1], me] += 1
        return oracle.step(self.setup, self.world, me, ask)
