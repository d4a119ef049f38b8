#!/usr/bin/env python3
"""Writes transfers.car: three tipsets of transfers, each over the same state of four accounts, of which one has a name;
and edges.car: tipsets at the edges of the rules. The reports are by evaluate.py."""
import os
import subprocess
import sys

here = os.path.dirname(os.path.abspath(__file__))
sys.path.insert(0, os.path.join(here, "..", "..", "bench"))
from scenarios import Blocks, car_of, id_address, message, scenario, state  # noqa: E402

FIL = 10**18
NAME = b"\x01" + bytes(range(20))  # an address of protocol 1, which names 102, and 101 at the edges
MADE = b"\x02" + bytes(range(20))  # one of protocol 2
KEY = b"\x03" + bytes(range(48))  # one of protocol 3

# What work costs: 20 for including a message and 2 for each of its bytes, 100 for a call, 50 for a transfer, 1 for the rest.
PRICES = [20, 2, 1, 100, 50] + [1] * 18


def to(receiver, sender, nonce, value, **gas):
    return message(id_address(receiver), id_address(sender), nonce, value, **gas)


def write(name, prices, blocks, tipsets):
    path = os.path.join(here, name)
    with open(path + ".car", "wb") as out:
        out.write(car_of(blocks, scenario(prices, 4, 16, tipsets)))
    with open(path + ".car", "rb") as car, open(path + ".report", "wb") as report:
        subprocess.run([sys.executable, os.path.join(here, "evaluate.py")], stdin=car, stdout=report, check=True)


def edges():
    """Tipsets over one state, and one over another, with prices 1. A message of this kind is 25 bytes long, so that its
    inclusion costs 26."""
    blocks = Blocks()
    root = state(
        blocks,
        {100: (0, 500_000_000), 101: (0, 0), 102: (0, 500_000_000), 103: (2**64 - 2, 10**12), 104: (0, 10**12)},
        names=[(NAME, 101), (MADE, 104), (KEY, 104)],
        others=[102],
    )

    other = state(blocks, {100: (0, 500_000_000), 101: (0, 0), 103: (5, 7)}, names=[(NAME, 103), (KEY, 100)], network="b")

    def send(receiver, sender=100, nonce=0, value=3, limit=1_000_000, cap=100, premium=1):
        return to(receiver, sender, nonce, value, limit=limit, cap=cap, premium=premium)

    def by_name(sender, nonce):
        return message(id_address(101), sender, nonce, 3)

    def one(messages, miner=101, award=0, base=10, over=root):
        return (5, base, over, [(miner, award, messages)])

    shared = [message(NAME, id_address(100), 0, 3, limit=1000), message(KEY, id_address(100), 1, 4, limit=1000)]

    return blocks, [
        # nothing at all, and a block without messages
        (0, 10, root, []),
        one([], award=7),
        one([], miner=555, award=7),
        # messages that may not run, for each cause, and the first of several causes
        one([send(101, limit=21), send(101, 500), send(101, 99), send(101, 102), send(101, nonce=1), send(101, limit=5_000_001)],
            award=100_000),
        one([send(101, 500, nonce=9, limit=22), send(101, 102, nonce=7), send(101, nonce=1, limit=5_000_001)]),
        # what is owed is more than what is earned
        one([send(101, 500), send(101, 777)], award=5),
        # how calls end: with gas for the inclusion, of 23 for such a limit, for the call, for the transfer; and for a call alone
        one([
            send(500, limit=1000),
            send(101, nonce=1, value=600_000_000, limit=1000),
            send(101, nonce=2, limit=23),
            send(101, nonce=3, limit=24),
            send(101, nonce=4, limit=25),
            send(101, nonce=5, value=0, limit=21),
            message(NAME, id_address(100), 6, 3, limit=1000),
            send(100, nonce=7),
            send(99, nonce=8),
        ]),
        # a message that came before, also one that was unfit then
        one([send(101), send(101), send(101, nonce=1), send(101), send(101, nonce=3), send(101, nonce=2), send(101, nonce=3)]),
        # senders by their names, the last nonce but one, and nine receipts
        one([by_name(MADE, 0), by_name(KEY, 1), by_name(NAME, 0), send(101, 103, nonce=2**64 - 2)]
            + [send(101, 104, nonce=nonce) for nonce in range(2, 7)]),
        # the burnt funds as a miner, and a base fee that is above the cap
        one([send(101)], miner=99, award=7),
        one([send(99, limit=1000, cap=4)], award=1_000_000),
        one([send(101, limit=1000, cap=4, premium=9)], base=2 * 10**27),
        one([send(101, limit=1000, cap=0, premium=0), send(101, nonce=1, limit=1000, cap=7, premium=100)], base=5),
        # the same messages twice over one state, then over another with other names, and over the first again
        one(shared, award=7),
        one(shared, award=7),
        one(shared, award=7, over=other),
        one(shared, award=7),
    ]


blocks = Blocks()
root = state(
    blocks,
    {100: (0, 10 * FIL), 101: (7, 5 * FIL), 102: (0, FIL), 103: (0, 0)},
    names=[(NAME, 102)],
    network="example",
)
tipsets = [
    # One transfer. The gas limit is more than is used, so that a part of it is burned.
    (1000, 100, root, [(103, FIL, [
        to(101, 100, 0, 2 * FIL, limit=300, cap=150, premium=5),
    ])]),
    # A name, a receiver that is no actor, a value that is too great, too little gas; and the first message once more.
    (1001, 100, root, [(103, FIL, [
        message(NAME, id_address(100), 0, 3 * FIL, limit=300, cap=150, premium=5),
        to(999, 100, 1, FIL, limit=300, cap=150, premium=5),
        to(100, 102, 0, 5 * FIL, limit=300, cap=150, premium=5),
        to(103, 101, 7, FIL, limit=180, cap=150, premium=5),
        message(NAME, id_address(100), 0, 3 * FIL, limit=300, cap=150, premium=5),
    ])]),
    # Messages that may not run: another nonce, no sender, no balance for the gas. The miner owes the base fee for them, and
    # is no actor: all of the award is burned.
    (1002, 100, root, [(555, FIL, [
        to(101, 100, 5, FIL, limit=300, cap=150, premium=5),
        to(101, 777, 0, FIL, limit=300, cap=150, premium=5),
        to(101, 103, 0, 0, limit=300, cap=150, premium=5),
    ])]),
]

write("transfers", PRICES, blocks, tipsets)
write("edges", [1] * 23, *edges())
