#!/usr/bin/env python3
"""Evaluates the tipsets of a CAR file of transfers, by the rules of docs/formats.md, and prints the reports.

    examples/transfers/evaluate.py < FILE.car

It shares no code with the program: it is what the reports of this folder were made with. It reads good files alone.
"""
import base64
import os
import sys

sys.path.insert(0, os.path.join(os.path.dirname(os.path.abspath(__file__)), "..", "..", "bench"))
from scenarios import BURNT_FUNDS, INIT, REWARD, Blocks, Link, amount, encode, hamt, id_address  # noqa: E402

GREATEST = 2 * 10**27


class Reader:
    """DAG-CBOR, one item after another."""

    def __init__(self, data):
        self.data, self.at = data, 0

    def take(self, count):
        self.at += count
        return self.data[self.at - count : self.at]

    def item(self):
        first = self.take(1)[0]
        major, low = first >> 5, first & 31
        number = low if low < 24 else int.from_bytes(self.take(1 << (low - 24)), "big")
        if major == 0:
            return number
        if major == 1:
            return -1 - number
        if major == 2:
            return self.take(number)
        if major == 3:
            return self.take(number).decode()
        if major == 4:
            return [self.item() for _ in range(number)]
        if major == 5:
            return {self.item(): self.item() for _ in range(number)}
        if major == 6:
            return Link(self.item()[1:])
        return {20: False, 21: True, 22: None}[number]


def decode(data):
    return Reader(data).item()


def varint(data, at):
    number, shift = 0, 0
    while True:
        number |= (data[at] & 127) << shift
        at, shift = at + 1, shift + 7
        if data[at - 1] < 128:
            return number, at


def read_car(data):
    """The root and the blocks by their CIDs."""
    length, at = varint(data, 0)
    root = decode(data[at : at + length])["roots"][0].cid
    at, blocks = at + length, {}
    while at < len(data):
        length, at = varint(data, at)
        behind = at
        for _ in range(4):  # version, codec, hash code, length of the digest
            number, behind = varint(data, behind)
        behind += number
        blocks.setdefault(data[at:behind], data[behind : at + length])
        at += length
    blocks.setdefault(Blocks().add(encode([])), encode([]))
    return root, blocks


def pairs_of(blocks, cid):
    """The pairs of a HAMT."""
    pairs = {}
    for pointer in decode(blocks[cid])[1]:
        if isinstance(pointer, Link):
            pairs.update(pairs_of(blocks, pointer.cid))
        else:
            pairs.update({key: value for key, value in pointer})
    return pairs


def number(data):
    return int.from_bytes(data, "big")


class State:
    """Actors by ID, each [code, head, sequence, balance], and names."""

    def __init__(self, blocks, root):
        _, actors, self.info = decode(blocks[root])
        self.actors = {
            varint(key, 1)[0]: [value[0], value[1], value[2], number(value[3])]
            for key, value in pairs_of(blocks, actors.cid).items()
        }
        names, self.next, self.network = decode(blocks[self.actors[INIT][1].cid])
        self.names = pairs_of(blocks, names.cid)
        self.minted = self.burned = 0

    def resolve(self, address):
        return varint(address, 1)[0] if address[0] == 0 else self.names.get(address)

    def give(self, actor, value):
        self.actors[actor][3] += value
        if actor == BURNT_FUNDS:
            self.burned += value

    def flush(self, made):
        """The root; the blocks are added to those made."""
        names = hamt(made, list(self.names.items()))
        self.actors[INIT][1] = Link(made.add(encode([Link(names), self.next, self.network])))
        actors = hamt(made, [
            (id_address(actor), [code, head, sequence, amount(balance)])
            for actor, (code, head, sequence, balance) in self.actors.items()
        ])
        return made.add(encode([4, Link(actors), self.info]))


def fees(used, limit, base, cap, premium):
    pay = min(base, cap)
    if used == 0:
        burned = limit
    else:
        over = limit - 11 * used // 10
        burned = 0 if over < 0 else (limit - used) * min(over, used) // used
    tip = min(premium, cap - pay) * limit
    base_burn, over_burn = pay * used, pay * burned
    return base_burn + over_burn, tip, (base - pay) * (used + burned), cap * limit - base_burn - over_burn - tip


def unfit(state, rules, message, inclusion):
    """Why a message may not run, or 0."""
    _, _, sender, nonce, _, limit, cap, _, _, _ = message
    actor = state.actors.get(state.resolve(sender))
    if inclusion > limit:
        return 7
    if actor is None or actor[0].cid != rules[2][2].cid or state.resolve(sender) == BURNT_FUNDS:
        return 1
    return 2 if actor[2] != nonce or actor[3] < number(cap) * limit else 0


def call(state, prices, message, sender, gas):
    """The exit code, and the gas that is left."""
    receiver, value = state.resolve(message[1]), number(message[4])
    if receiver not in state.actors:
        return 5, gas
    if value == 0:
        return 0, gas
    if gas < prices[4]:
        return 7, 0
    if state.actors[sender][3] < value:
        return 6, gas - prices[4]
    state.actors[sender][3] -= value
    state.give(receiver, value)
    return 0, gas - prices[4]


def apply(state, rules, base, message):
    """Exit code, gas used, tip and what the miner owes."""
    prices, size = rules[0], len(encode(message))
    limit, cap, premium = message[5], number(message[6]), number(message[7])
    inclusion = prices[0] + prices[1] * size
    exit = unfit(state, rules, message, inclusion)
    if exit:
        return exit, 0, 0, base * min(inclusion, limit)
    sender = state.resolve(message[2])
    state.actors[sender][2] += 1
    state.actors[sender][3] -= cap * limit
    exit, gas = 7, 0
    if limit >= inclusion + prices[3]:
        exit, gas = call(state, prices, message, sender, limit - inclusion - prices[3])
    burned, tip, owed, refund = fees(limit - gas, limit, base, cap, premium)
    state.give(BURNT_FUNDS, burned)
    state.give(REWARD, tip)
    state.give(sender, refund)
    return exit, limit - gas, tip, owed


def amt(made, values):
    """The root of an AMT of values at 0, 1, .. ."""
    height = 0
    while len(values) > 8 ** (height + 1):
        height += 1

    def node(values, height):
        if height == 0:
            return [bytes([(1 << len(values)) - 1]), [], values]
        width = 8**height
        parts = [values[at : at + width] for at in range(0, len(values), width)]
        links = [Link(made.add(encode(node(part, height - 1)))) for part in parts]
        return [bytes([(1 << len(parts)) - 1]), links, []]

    return made.add(encode([height, len(values), node(values, height)]))


def text(cid):
    return "b" + base64.b32encode(cid).decode().lower().rstrip("=")


def evaluate(blocks, rules, at, tipset):
    epoch, base, root, tip_blocks = tipset
    state, base = State(blocks, root.cid), number(base)
    came, receipts, lines, gas = set(), [], [f"tipset {at} epoch {epoch}"], 0
    for place, (miner, award, messages) in enumerate(tip_blocks):
        tips = penalties = 0
        for index, message in enumerate(messages):
            if encode(message) in came:
                continue
            came.add(encode(message))
            exit, used, tip, owed = apply(state, rules, base, message)
            tips, penalties, gas = tips + tip, min(penalties + owed, GREATEST), gas + used
            receipts.append([exit, b"", used])
            lines.append(f"receipt {place} {index} exit {exit} gas {used} return -")
        state.minted += number(award)
        state.actors[REWARD][3] += number(award)
        earned = number(award) + tips
        state.actors[REWARD][3] -= earned
        state.give(BURNT_FUNDS, min(earned, penalties))
        state.give(miner if miner in state.actors else BURNT_FUNDS, earned - min(earned, penalties))
    made = Blocks()
    lines += [f"receipts {text(amt(made, receipts))}", f"state {text(state.flush(made))}", f"gas {gas}"]
    lines += [f"minted {state.minted}", f"burned {state.burned}", "invocations 0"]
    return lines + [f"blocks {sum(cid not in blocks for cid in made.blocks)}", "end"]


def main():
    root, blocks = read_car(sys.stdin.buffer.read())
    _, rules, tipsets = decode(blocks[root])
    for at, tipset in enumerate(tipsets):
        print("\n".join(evaluate(blocks, rules, at, tipset)))


main()
