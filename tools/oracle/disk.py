"""Disks in memory that stop at calls, the bytes of a batch, and a journal of batches, said in Python as the definitions of
ind_disk, op_records and rights_journal say them."""
from types import SimpleNamespace as Rec

MAGIC = b"INDIGOJ1"


class Failed(Exception):
    """A call of a disk did nothing, or not all."""


class Disk:
    """Bytes; its calls that write or sync are numbered from 0, through restarts, and stop where a stop (call, keep, fill) names them."""

    def __init__(self, stops):
        self.bytes, self.stops, self.next, self.stopped = bytearray(), stops, 0, False

    def _call(self):
        if self.stopped:
            raise Failed
        number, self.next = self.next, self.next + 1
        found = [s for s in self.stops if s[0] == number]
        self.stopped = bool(found)
        return found[0] if found else None

    def write(self, at, data):
        stop = self._call()
        if stop:
            data = data[:stop[1]] + bytes([stop[2]]) * (len(data) - min(stop[1], len(data)))
        self.bytes[at:at + len(data)] = data
        if stop:
            raise Failed

    def sync(self):
        if self._call():
            raise Failed

    def restart(self):
        self.stopped = False


def number(n, size):
    return n.to_bytes(size, "big")


def args_bytes(args):
    return number(len(args), 1) + b"".join(number(a, 2) for a in args)


def right_bytes(r):
    if r[0] in ("Low", "High"):
        return number(1 if r[0] == "Low" else 2, 1) + number(r[1][0], 2) + args_bytes(r[1][1])
    if r[0] == "Entry":
        return number(4, 1) + number(r[1], 2) + args_bytes(r[2]) + number(r[3], 1)
    return number(3 if r[0] == "Lock" else 5, 1) + number(r[1], 2) + args_bytes(r[2])


def piece_bytes(piece):
    if piece[0] == "Count":
        return number(piece[1], 8)
    if piece[0] == "Shares":
        return number(piece[1], 1) + number(1 if piece[2] == "allow" else 0, 1)
    return number(piece[1][0], 2) + number(piece[1][1], 2)


def body_bytes(body):
    if body[0] == "Act":
        inst = body[1]
        return number(1, 1) + number(inst.op, 2) + number(len(inst.args), 1) + b"".join(number(lo, 2) + number(hi, 2) for lo, hi in inst.args)
    if body[0] == "Out":
        return number(2, 1) + number(body[1], 1) + right_bytes(body[2]) + piece_bytes(body[3])
    return number(3, 1) + number(body[1], 1) + number(body[2], 4)


def batch_bytes(replicas, items):
    """The one spelling of a batch of 1 to 40 items."""
    assert 1 <= len(items) <= 40
    text = number(len(items), 2) + number(replicas, 1)
    for i in items:
        assert len(i.deps) == replicas and i.deps[i.origin] == i.index
        text += number(i.origin, 1) + number(i.index, 4) + b"".join(number(n, 4) for n in i.deps) + body_bytes(i.body)
    return text


def read(data):
    """The batches' bytes and the place of the closed gate of a finished journal; None of an unfinished one."""
    size = len(data)
    if size <= 1 or (data[0] == 0 and size <= 10) or (size == 10 and data[1:9] == MAGIC and data[9] != 1 and data[0] != 1):
        return None
    assert data[0] == 1 and data[1:9] == MAGIC and size >= 10, "foreign at 0"
    at, batches = 9, []
    while data[at] == 1:
        length = int.from_bytes(data[at + 1:at + 5], "big")
        assert 1 <= length and at + 5 + length < size, f"foreign at {at}"
        batches.append(bytes(data[at + 5:at + 5 + length]))
        at += 5 + length
    return batches, at


def start(disk):
    """Starts a journal: its batches' bytes, and the place of its closed gate. Or the disk fails."""
    if disk.stopped:
        raise Failed
    found = read(disk.bytes)
    if found is not None:
        return found
    if not (len(disk.bytes) >= 2 and disk.bytes[0] == 0):
        disk.write(0, b"\0")
        disk.sync()
    disk.write(1, MAGIC + b"\0")
    disk.sync()
    disk.write(0, b"\1")
    disk.sync()
    return [], 9


def append(disk, gate, text):
    """Adds a batch behind the closed gate; the place of the next closed gate. Or the disk fails."""
    disk.write(gate + 1, number(len(text), 4) + text + b"\0")
    disk.sync()
    disk.write(gate, b"\1")
    disk.sync()
    return gate + 5 + len(text)
