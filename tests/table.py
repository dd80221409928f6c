"""What the scripts that print tables share."""
import random
import sys


def changed(rng, data, other, within=None):
    """The bytes cut off, with one of them (of so many of the first) changed, changed otherwise, or as they are."""
    data = bytearray(data)
    change = rng.randrange(4)
    if change == 0:
        del data[rng.randrange(len(data) + 1):]
    elif change == 1:
        data[rng.randrange(len(data[:within]))] = rng.randrange(256)
    elif change == 2:
        other(data)
    return bytes(data)


def print_case(asked, told):
    print(asked, "=>", told)


def generator():
    """What is at random, by the argument SEED."""
    return random.Random(int(sys.argv[2]) if len(sys.argv) > 2 else 1)


def print_cases(case, rng=None):
    """Prints as many cases at random as the arguments COUNT [SEED] say."""
    count = int(sys.argv[1])
    rng = rng or generator()
    for _ in range(count):
        print_case(*case(rng))
