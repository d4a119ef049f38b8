#!/usr/bin/env python3
"""Spells account lists.

    account_list.py ACCOUNTS MESSAGES [SEED] > FILE

writes a list of so many accounts and messages, the same for the same numbers: IDs with gaps from 100 on, balances
that add up to 2 billion FIL at most, transfers of up to 10 FIL of which most succeed.
"""
import random
import sys

FIL = 10**18
GREATEST = 2 * 10**9 * FIL


def head(major, n):
    for info, size in ((24, 1), (25, 2), (26, 4), (27, 8)):
        if n < 24:
            return bytes([32 * major + n])
        if n < 256**size:
            return bytes([32 * major + info]) + n.to_bytes(size, "big")
    raise ValueError(n)


def integer(n):
    return head(0, n)


def amount(n):
    magnitude = n.to_bytes((n.bit_length() + 7) // 8, "big")
    spelled = b"\0" + magnitude if n else b""
    return head(2, len(spelled)) + spelled


def list_of(items):
    return head(4, len(items)) + b"".join(items)


def account_list(epoch, actors, messages):
    """The bytes of a list of actors (id, nonce, balance) and messages (from, to, nonce, value)."""
    return list_of([
        integer(0),
        integer(epoch),
        list_of([list_of([integer(i), integer(n), amount(b)]) for i, n, b in actors]),
        list_of([list_of([integer(f), integer(t), integer(n), amount(v)]) for f, t, n, v in messages]),
    ])


def random_list(accounts, messages, seed):
    rng = random.Random(seed)
    actors, next_id = [], 100
    for _ in range(accounts):
        actors.append((next_id, rng.randrange(100), rng.randrange(GREATEST // accounts)))
        next_id += rng.randrange(1, 4)
    nonces = {i: n for i, n, _ in actors}
    transfers = []
    for _ in range(messages):
        sender, receiver = rng.choice(actors)[0], rng.choice(actors)[0]
        nonce = nonces[sender]
        if rng.randrange(50) == 0:
            nonce += 1
        else:
            nonces[sender] += 1
        transfers.append((sender, receiver, nonce, rng.randrange(10 * FIL)))
    return account_list(3_000_000, actors, transfers)


if __name__ == "__main__":
    numbers = [int(word) for word in sys.argv[1:]]
    if len(numbers) not in (2, 3):
        sys.exit(__doc__)
    sys.stdout.buffer.write(random_list(*numbers, *([1] if len(numbers) == 2 else [])))
