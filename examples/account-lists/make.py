#!/usr/bin/env python3
"""Writes transfers.cbor: three accounts, and six messages, one for each way in which a message can end and one more."""
import os
import sys

here = os.path.dirname(os.path.abspath(__file__))
sys.path.insert(0, os.path.join(here, "..", "..", "bench"))
from account_list import FIL, account_list  # noqa: E402

ACTORS = [
    (100, 0, 10 * FIL),
    (101, 3, 5 * FIL),
    (102, 0, 0),
]
MESSAGES = [
    (100, 101, 0, 5 * FIL // 2),  # ends well
    (101, 102, 3, FIL),           # ends well
    (101, 102, 3, FIL),           # the nonce was used already: exit 2
    (104, 100, 0, FIL),           # the sender is not listed: exit 1
    (100, 999, 1, FIL),           # the receiver is not listed: exit 5, and the nonce rises
    (102, 100, 0, 2 * FIL),       # the balance is too small: exit 6, and the nonce rises
]

with open(os.path.join(here, "transfers.cbor"), "wb") as out:
    out.write(account_list(4_200_000, ACTORS, MESSAGES))
