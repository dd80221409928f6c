#!/usr/bin/env python3
"""Prints a table of items for the program `item_vectors`: items at random, whole, cut off and with a byte changed. What stands beside
comes from a checker of its own that keeps, for each item that it has gone over, the last place at which it could be larger and how many
items come after it.

  tests/items.py COUNT [SEED]
"""
import table

ENDLESS = 2 ** 64


class Stop(Exception):
    """Where the bytes cease to begin an item; None where all of them begin one."""


def argument(data, at, demand):
    first, low = data[at], data[at] & 31
    if low < 24:
        return low, at + 1
    width = 1 << (low - 24)
    settles = max(1, width // 2)
    got = data[at + 1:at + 1 + width]
    least = (32 if first == 0xf8 else 24) if width == 1 else 1
    if len(got) >= settles and int.from_bytes(got[:settles], "big") < least:
        raise Stop(at + settles)
    if first == 0xf8 and got and 255 - got[0] < demand:
        raise Stop(at + 1)
    if len(got) < width:
        raise Stop(None)
    return int.from_bytes(got, "big"), at + 1 + width


def text(data, at, size):
    """Where a text ends, and the last place at which it could be larger."""
    end, up = at + size, None
    while at < end:
        left = end - at
        if at >= len(data):
            raise Stop(None)
        first = data[at]
        count = next((n for n, low, high in ((1, 0, 0x7f), (2, 0xc2, 0xdf), (3, 0xe0, 0xef), (4, 0xf0, 0xf4)) if low <= first <= high), left + 1)
        if count > left:
            raise Stop(at)
        if first < (0x7f, 0xdf, 0xef, 0xf4)[min(left, 4) - 1]:
            up = at
        for place in range(at + 1, at + count):
            low, high = 0x80, 0xbf
            if place == at + 1:
                low = {0xe0: 0xa0, 0xf0: 0x90}.get(first, low)
                high = {0xed: 0x9f, 0xf4: 0x8f}.get(first, high)
            if place >= len(data):
                raise Stop(None)
            if not low <= data[place] <= high:
                raise Stop(place)
            if data[place] < high:
                up = place
        at += count
    return end, up


def key(data, at, depth, demand, last):
    """A key, after the last one, which is its bytes and how many of them a larger one shares at most."""
    stopped = None
    try:
        found = item(data, at, depth, demand)
        end = found[0]
    except Stop as stop:
        stopped, found = stop, None
        end = len(data) if stop.args[0] is None else stop.args[0]
    if last is not None:
        known, up = last
        most = up + 1 if up is not None else 0
        for index in range(most):
            if at + index >= end:
                break
            mine, other = data[at + index], known[index]
            if mine > other:
                break
            if mine < other or index + 1 == most:
                raise Stop(at + index)
    if stopped:
        raise stopped
    return found


def item(data, at, depth, demand):
    """Where an item ends, the last place at which it could be larger, and how many come after it."""
    start = at
    if at >= len(data):
        raise Stop(None)
    first, major = data[at], data[at] >> 5
    if first & 31 > 27 or first > 0xf8 or (4 <= major <= 6 and depth == 0):
        raise Stop(at)
    if major == 7 and (223 if first == 0xf8 else 247 - (first & 31)) < demand:
        raise Stop(at)
    number, at = argument(data, at, demand)
    up = next((place for place in range(at - 1, start, -1) if data[place] < 255), None if first == 0xf8 else start)
    after = ENDLESS
    if major == 2:
        if len(data) - at < number:
            raise Stop(None)
        up = next((place for place in range(at + number - 1, at - 1, -1) if data[place] < 255), up)
        at += number
    elif major == 3:
        at, inner = text(data, at, number)
        up = up if inner is None else inner
    elif major == 4:
        for _ in range(number):
            at, inner, _ = item(data, at, depth - 1, 0)
            up = up if inner is None else inner
    elif major == 5:
        last = None
        for left in range(number - 1, -1, -1):
            begin = at
            at, inner, follow = key(data, at, depth - 1, left, last)
            last = data[begin:at], None if inner is None else inner - begin
            if inner is not None and follow > left:
                up = inner
            at, inner, _ = item(data, at, depth - 1, 0)
            up = up if inner is None else inner
    elif major == 6:
        most = number == 2 ** 64 - 1
        at, inner, follow = item(data, at, depth - 1, max(0, demand - 248) if most else 0)
        up = up if inner is None else inner
        after = follow + 248 if most else ENDLESS
    elif major == 7:
        after = 255 - number if first == 0xf8 else 247 - number
    return at, up, after


def verdict(data):
    """What is told of these bytes."""
    try:
        end = item(data, 0, 32, 0)[0]
    except Stop as stop:
        return "prefix" if stop.args[0] is None else f"wrong at {stop.args[0]}"
    return "complete" if end == len(data) else f"wrong at {end}"


def head(major, number):
    if number < 24:
        return bytes([32 * major + number])
    low = next(low for low in (24, 25, 26, 27) if number < 256 ** (1 << (low - 24)))
    return bytes([32 * major + low]) + number.to_bytes(1 << (low - 24), "big")


def random_item(rng, depth):
    """The bytes of a valid item at random, with keys that often tie."""
    major = rng.choice((0, 0, 1, 2, 3, 3, 4, 5, 5, 6, 7, 7)) if depth else rng.choice((0, 1, 2, 3, 7))
    if major < 2:
        return head(major, rng.randrange(256 ** rng.choice((1, 1, 2, 4, 8))))
    if major == 2:
        content = bytes(rng.choice((0, 1, 254, 255)) for _ in range(rng.choice((0, 1, 2, 3, 24))))
        return head(2, len(content)) + content
    if major == 3:
        content = "".join(rng.choice("ab\x7f\x80\u07ff\u0800\ud7ff\uffff\U00010000\U0010ffff") for _ in range(rng.randrange(5))).encode()
        return head(3, len(content)) + content
    if major == 4:
        count = rng.randrange(4)
        return head(4, count) + b"".join(random_item(rng, depth - 1) for _ in range(count))
    if major == 5:
        keys = sorted({random_item(rng, rng.randrange(min(depth, 3))) for _ in range(rng.randrange(5))})
        return head(5, len(keys)) + b"".join(key + random_item(rng, depth - 1) for key in keys)
    if major == 6:
        return head(6, rng.choice((0, 23, 24, 2 ** 64 - 1, 2 ** 64 - 1))) + random_item(rng, depth - 1)
    return head(7, rng.choice((0, 20, 23, 32, 254, 255)))


def flip_bit(rng, data):
    data[rng.randrange(len(data))] ^= 1 << rng.randrange(8)


def item_bytes(rng):
    """An item, cut off or with a byte changed, or any bytes."""
    if not rng.randrange(8):
        return rng.randbytes(rng.choice((0, 1, 2, 5, 23, 24, 255, 256, 300)))
    return table.changed(rng, random_item(rng, rng.choice((1, 2, 3, 5))), lambda data: flip_bit(rng, data))


def case(rng):
    data = item_bytes(rng)
    return f"check {data.hex()}", verdict(data)


if __name__ == "__main__":
    table.print_cases(case)
