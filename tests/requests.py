#!/usr/bin/env python3
"""Prints a table of requests and their answers for the program `vectors`: requests at random, whole, cut off and
with a byte changed. The answers come from a reader of its own, byte by byte, that knows nothing of the proved one.

  tests/requests.py COUNT [SEED]
"""
import rules
import table
from rules import head, string


def step(rng):
    kind = rng.randrange(3)
    if kind == 0:
        return head(0, 0) + head(0, number(rng))
    if kind == 1:
        return head(0, 1) + string(rng.randbytes(length(rng)))
    return head(0, 2)


def number(rng):
    return rng.randrange(256 ** rng.choice((1, 1, 2, 4, 8)))


def length(rng):
    return rng.choice((0, 1, 2, 5, 23, 24, 255, 256, 300))


def request(rng):
    item = string(rng.randbytes(length(rng)))
    kind = rng.randrange(3)
    if kind == 0:
        return head(0, 0) + item
    if kind == 2:
        written = bytearray(rules.rules(rng))
        if rng.randrange(2):
            written[rng.randrange(len(written))] = rng.randrange(256)
        return head(0, 2) + string(written) + head(0, number(rng)) + item
    count = rng.choice((0, 1, 2, 3, 24, 32, 33))
    return head(0, 1) + head(0, count) + b"".join(step(rng) for _ in range(count)) + item


def place(data):
    """The first byte with which no request begins, how many there are if they all begin one, or None if one stands there."""
    wanted, at = [("opcode", 2, (["string"], ["count", "string"], ["rules", "number", "string"]))], 0
    while wanted:
        kind, *rest = wanted.pop(0) if isinstance(wanted[0], tuple) else (wanted.pop(0),)
        if kind == "bytes":
            at += rest[0]
            if at > len(data):
                return len(data)
            continue
        if kind == "steps":
            if rest[0]:
                wanted[:0] = [("opcode", 2, (["number"], ["string"], [])), ("steps", rest[0] - 1)]
            continue
        if at == len(data):
            return at
        first = data[at]
        if kind == "opcode":
            if first > rest[0]:
                return at
            at += 1
            wanted[:0] = rest[1][first]
            continue
        if first >> 5 != (2 if kind in ("string", "rules") else 0) or first & 31 > 27:
            return at
        at += 1
        value = first & 31
        if value > 23:
            width = 1 << (value - 24)
            least = (24, 256, 65536, 2**32)[value - 24]
            value = 0
            for left in reversed(range(width)):
                if at == len(data):
                    return at
                value = 256 * value + data[at]
                if (value + 1) * 256**left <= least:
                    return at
                at += 1
        if kind == "rules" and at + value <= len(data):
            told = rules.told(bytes(data[at : at + value])).split()
            if told[0] == "wrong":
                return at + int(told[2])
        if kind in ("string", "rules"):
            wanted.insert(0, ("bytes", value))
        elif kind == "count":
            wanted.insert(0, ("steps", value))
    return None


def case(rng):
    data = table.changed(rng, request(rng), lambda data: data.extend(rng.randbytes(3)), within=12)
    found = place(data)
    return data.hex(), "0 6 0" if found is None else f"0 1 {found}"


table.print_cases(case)
