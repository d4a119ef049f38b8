"""Writes scenarios as CAR files: DAG-CBOR, HAMTs, states and messages, by the formats of docs/formats.md.

It shares no code with the program, so that what it writes tests what the program reads.
"""
import hashlib

SYSTEM, INIT, REWARD, BURNT_FUNDS = 0, 1, 2, 99
DAG_CBOR, RAW = 0x71, 0x55


class Link:
    """The CID of a block, in bytes."""

    def __init__(self, cid):
        self.cid = cid


def varint(number):
    out = bytearray()
    while number >= 128:
        out.append(number % 128 + 128)
        number //= 128
    out.append(number)
    return bytes(out)


def cid_of(codec, block):
    digest = hashlib.blake2b(block, digest_size=32).digest()
    return b"\x01" + varint(codec) + varint(0xB220) + varint(32) + digest


def head(major, number):
    if number < 24:
        return bytes([major * 32 + number])
    for more, size in ((24, 1), (25, 2), (26, 4), (27, 8)):
        if number < 1 << (8 * size):
            return bytes([major * 32 + more]) + number.to_bytes(size, "big")
    raise ValueError(number)


def encode(value):
    """The DAG-CBOR of numbers, byte strings, texts, lists, maps and links."""
    if isinstance(value, int):
        return head(0, value) if value >= 0 else head(1, -1 - value)
    if isinstance(value, bytes):
        return head(2, len(value)) + value
    if isinstance(value, str):
        text = value.encode()
        return head(3, len(text)) + text
    if isinstance(value, list):
        return head(4, len(value)) + b"".join(map(encode, value))
    if isinstance(value, dict):
        keys = sorted(value, key=lambda key: (len(key.encode()), key.encode()))
        return head(5, len(value)) + b"".join(encode(key) + encode(value[key]) for key in keys)
    if isinstance(value, Link):
        return b"\xd8\x2a" + encode(b"\0" + value.cid)
    raise TypeError(value)


def amount(number):
    return b"" if number == 0 else b"\0" + number.to_bytes((number.bit_length() + 7) // 8, "big")


def id_address(number):
    return b"\0" + varint(number)


class Blocks:
    """Blocks in their order, each CID once."""

    def __init__(self):
        self.blocks = {}

    def add(self, block, codec=DAG_CBOR):
        cid = cid_of(codec, block)
        self.blocks.setdefault(cid, block)
        return cid

    def car(self, root):
        header = encode({"roots": [Link(root)], "version": 1})
        sections = [varint(len(header)), header]
        for cid, block in self.blocks.items():
            sections += [varint(len(cid) + len(block)), cid, block]
        return b"".join(sections)


def hamt(blocks, pairs):
    """The root of a HAMT of pairs of keys and values, whose nodes are added, children before parents."""
    hashed = [(int.from_bytes(hashlib.sha256(key).digest(), "big"), key, value) for key, value in pairs]
    return hamt_node(blocks, hashed, 1)


def hamt_node(blocks, pairs, level):
    groups = {}
    for pair in pairs:
        groups.setdefault(pair[0] >> (256 - 5 * level) & 31, []).append(pair)
    bits, pointers = 0, []
    for place in sorted(groups):
        group = groups[place]
        bits |= 1 << place
        if len(group) <= 3:
            pointers.append([[key, value] for _, key, value in sorted(group, key=lambda pair: pair[1])])
        else:
            pointers.append(Link(hamt_node(blocks, group, level + 1)))
    field = bits.to_bytes((bits.bit_length() + 7) // 8, "big")
    return blocks.add(encode([field, pointers]))


def codes():
    """The codes of the actors that are built in: the raw blocks of their names."""
    return [cid_of(RAW, name) for name in (b"system", b"init", b"account", b"reward")]


def state(blocks, accounts, names=(), next_id=None, network="test", others=()):
    """The root of a state: accounts by their IDs, each a pair of nonce and balance, and names, pairs of address and ID.
    The others have the code of the system actor in place of that of accounts."""
    system, init, account, reward = codes()
    empty = blocks.add(encode([]))
    tree = hamt(blocks, [(name, number) for name, number in names])
    if next_id is None:
        next_id = max(list(accounts) + [BURNT_FUNDS]) + 1
    init_head = blocks.add(encode([Link(tree), next_id, network]))
    actors = {
        INIT: (init, init_head, 0, 0),
        REWARD: (reward, empty, 0, 0),
        BURNT_FUNDS: (account, empty, 0, 0),
    }
    for number, (nonce, balance) in accounts.items():
        actors[number] = (system if number in others else account, empty, nonce, balance)
    records = [
        (id_address(number), [Link(code), Link(head), nonce, amount(balance)])
        for number, (code, head, nonce, balance) in actors.items()
    ]
    tree = hamt(blocks, records)
    return blocks.add(encode([4, Link(tree), Link(empty)]))


def message(to, sender, nonce, value, limit=1_000_000, cap=100, premium=1, method=0, params=b""):
    """A message between addresses."""
    return [0, to, sender, nonce, amount(value), limit, amount(cap), amount(premium), method, params]


def scenario(prices, depth, pages, tipsets):
    """Tipsets are tuples of epoch, base fee, state root and blocks; blocks of miner, award and messages."""
    rules = [prices, [depth, pages], [Link(code) for code in codes()]]
    return [1, rules, [
        [epoch, amount(base_fee), Link(root), [[miner, amount(award), messages] for miner, award, messages in blocks]]
        for epoch, base_fee, root, blocks in tipsets
    ]]


def car_of(blocks, value):
    """The CAR file of a scenario over blocks."""
    whole = Blocks()
    root = whole.add(encode(value))
    whole.blocks.update(blocks.blocks)
    return whole.car(root)
