#!/usr/bin/env python3
"""Writes the examples in which each disk call of an exchange between two branches is stopped in turn.

usage: stops.py FOLDER    (crates/worked_examples/data)

Each is stopped with nothing written, with other bytes written, and with all bytes written. After the stop both branches
recover, exchange their rights once more and sell on. The answers are those of the second simulator."""
import os, sys
import oracle

SHOP = """num stock() init 7 min 0
op buy()
sub 1 stock()
replicas 2
"""
EXCHANGE = """do 0 buy()
do 1 buy()
do 0 buy()
do 0 buy()
do 0 buy()
do 0 buy()
send 0 1
take 1 0 0
send 1 0
take 0 1 0
do 0 buy()
recover 0
recover 1
send 1 0
take 0 1 1
send 0 1
take 1 0 1
send 1 0
take 0 1 2
do 0 buy()
do 1 buy()
"""


def calls(document):
    """How many calls each disk gets where none stops."""
    setup, schedule = oracle.setup_of(document.encode())
    return [p.disk.next for p in oracle.run(setup, schedule)[1]]


def main():
    folder = sys.argv[1]
    for name, text in (("branches", SHOP), ("exchange", EXCHANGE)):
        with open(os.path.join(folder, "parts", name + ".txt"), "w") as file:
            file.write(text)
    out = open(os.path.join(folder, "stops.txt"), "w")
    out.write("Each disk call of an exchange between two branches stopped in turn. Made by tools/oracle/stops.py.\n")
    for replica, count in enumerate(calls(SHOP + EXCHANGE)):
        for call in range(count):
            for kept, (keep, fill) in (("nothing", (0, 0)), ("other bytes", (0, 1)), ("all bytes", (4096, 0))):
                stop = f"stop {replica} {call} {keep} {fill}\n"
                status, text = oracle.simulate((SHOP + stop + EXCHANGE).encode())
                out.write(f"%% branch {replica} stopped at call {call} with {kept}: {status} simulate\n")
                out.write(f"%< parts/branches.txt\n{stop}%< parts/exchange.txt\n%=\n{text}")
    out.write("%% end\n")


if __name__ == "__main__":
    main()
