#!/usr/bin/env python3
"""Prints a table of rules for the program `vectors`: rules at random, whole, cut off and with a byte changed, and some that are large or
nest deep. What stands beside comes from a reader of its own, by recursion, that knows nothing of the proved one.

  tests/rules.py COUNT [SEED]
"""
import sys

import table

sys.setrecursionlimit(100000)
MOST = 8192


def head(major, n):
    if n < 24:
        return bytes([32 * major + n])
    for low, width in ((24, 1), (25, 2), (26, 4), (27, 8)):
        if n < 256**width:
            return bytes([32 * major + low]) + n.to_bytes(width, "big")


def string(content):
    return head(2, len(content)) + content


def number(rng):
    return head(0, rng.randrange(256 ** rng.choice((1, 1, 2, 4, 8))))


def schema(rng, depth):
    kind = rng.randrange(11) if depth else rng.choice((0, 1, 2, 3, 4, 5, 10))
    out = head(0, kind)
    if kind in (1, 2, 3, 4):
        return out + number(rng) + number(rng)
    if kind == 5:
        return out + string(rng.randbytes(rng.choice((0, 1, 5, 30, 300))))
    if kind == 6:
        return out + schema(rng, depth - 1) + schema(rng, depth - 1)
    if kind == 7:
        return out + group(rng, depth - 1)
    if kind == 8:
        count = rng.choice((0, 1, 2, 5))
        return out + head(0, count) + b"".join(field(rng, depth - 1) for _ in range(count))
    if kind == 9:
        return out + number(rng) + schema(rng, depth - 1)
    if kind == 10:
        return out + number(rng)
    return out


def group(rng, depth):
    kind = rng.randrange(5) if depth > 0 else 0
    out = head(0, kind)
    if kind == 1:
        return out + schema(rng, depth - 1)
    if kind in (2, 3):
        return out + group(rng, depth - 1) + group(rng, depth - 1)
    if kind == 4:
        return out + number(rng) + number(rng) + group(rng, depth - 1)
    return out


def field(rng, depth):
    kind = rng.randrange(3)
    if kind == 2:
        return head(0, 2) + schema(rng, max(depth, 0)) + schema(rng, max(depth, 0))
    return head(0, kind) + string(rng.randbytes(rng.choice((0, 1, 24)))) + schema(rng, max(depth, 0))


def rules(rng):
    count = rng.choice((0, 1, 1, 2, 3, 25))
    return head(0, count) + b"".join(schema(rng, 6) for _ in range(count))


class Wrong(Exception):
    pass


class Large(Exception):
    pass


class Reader:
    """Goes down the tree; `parts` counts a node once its own numbers and strings are there."""

    def __init__(self, data):
        self.data, self.at, self.parts = data, 0, 0

    def byte(self):
        if self.at == len(self.data):
            raise Wrong(self.at)
        self.at += 1
        return self.data[self.at - 1]

    def opcode(self, last):
        if self.byte() > last:
            raise Wrong(self.at - 1)
        return self.data[self.at - 1]

    def argument(self, major):
        first = self.byte()
        if first >> 5 != major or first & 31 > 27:
            raise Wrong(self.at - 1)
        value = first & 31
        if value < 24:
            return value
        width, least, value = 1 << (value - 24), (24, 256, 65536, 2**32)[value - 24], 0
        for left in reversed(range(width)):
            value = 256 * value + self.byte()
            if (value + 1) * 256**left <= least:
                raise Wrong(self.at - 1)
        return value

    def text(self):
        size = self.argument(2)
        if size > len(self.data) - self.at:
            raise Wrong(len(self.data))
        self.at += size
        return size

    def count(self, parts):
        self.parts += parts
        if self.parts > MOST:
            raise Large

    def schema(self, rule=0):
        kind = self.opcode(10)
        if kind in (1, 2, 3, 4):
            self.argument(0), self.argument(0)
        size = self.text() if kind == 5 else 0
        fields = self.argument(0) if kind in (8, 9, 10) else 0
        self.count(1 + rule + size)
        if kind == 6:
            self.schema(), self.schema()
        elif kind == 7:
            self.group()
        elif kind == 8:
            for _ in range(fields):
                self.field()
        elif kind == 9:
            self.schema()

    def group(self):
        kind = self.opcode(4)
        if kind == 4:
            self.argument(0), self.argument(0)
        self.count(1)
        if kind == 1:
            self.schema()
        elif kind in (2, 3):
            self.group(), self.group()
        elif kind == 4:
            self.group()

    def field(self):
        kind = self.opcode(2)
        self.count(1 + (self.text() if kind < 2 else 0))
        self.schema()
        if kind == 2:
            self.schema()

    def read(self):
        for _ in range(self.argument(0)):
            self.schema(1)
        if self.at < len(self.data):
            raise Wrong(self.at)


def told(data):
    reader = Reader(data)
    try:
        reader.read()
    except Wrong as wrong:
        return f"wrong at {wrong}"
    except Large:
        return "too large"
    return f"{reader.parts} parts"


def large():
    """At the limit of parts, and nested as deep as it allows."""
    for count in (4096, 4097):
        yield head(0, count) + bytes(count)
    yield head(0, 1) + b"\x05" + string(bytes(8190))
    yield head(0, 1) + b"\x05" + string(bytes(8191))
    for deep in (8180, 8190, 8191):
        yield head(0, 1) + b"\x09\x01" * deep + b"\x00"
        yield head(0, 1) + b"\x06" * (deep // 2) + b"\x00" * (deep // 2 + 1)
        yield head(0, 1) + b"\x06\x00" * (deep // 2) + b"\x00"
        yield head(0, 1) + b"\x07" + b"\x02" * (deep // 2) + b"\x00" * (deep // 2 + 1)
    yield head(0, 1) + b"\x06" * 8191
    yield head(0, 1) + b"\x06" * 8192 + b"\x0b"
    yield head(0, 1) + b"\x06" * 8100 + b"\x0b"


def case(data):
    return f"rules {data.hex()}", told(data)


def main():
    rng = table.generator()  # a bad SEED is told before anything is printed
    for data in large():
        table.print_case(*case(data))
    table.print_cases(lambda rng: case(table.changed(rng, rules(rng), lambda data: data.extend(rng.randbytes(2)))), rng)


if __name__ == "__main__":
    main()
