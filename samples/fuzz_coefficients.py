#!/usr/bin/env python3
"""Holds the program `coefficients` against a model in exact fractions on generated inputs, good and damaged: each whole or in random
parts, and byte by byte.

    python3 samples/fuzz_coefficients.py [COUNT] [PROGRAM]     (5000 inputs; samples/coefficients)
"""
import math
import os
import random
import struct
import sys
from fractions import Fraction

from fuzz import HERE, answered, cuts, damaged, singly

NAMES = {
    b"A": lambda g: g - 1.0, b"B": lambda g: -g, b"C": lambda g: g, b"D": lambda g: -1.0 - g, b"Z": lambda g: 0.0, b"X": lambda g: 0.0,
}
RETIRED = [b"B1", b"C1"]
EDGES = [0.0, -0.0, 5e-324, -5e-324, 0.5, -0.5, 1.0, -1.0, 2.0**-33, -(2.0**-33), math.inf, -math.inf, math.nan]


def line_bits(line):
    """The bits, and the refusal number or 0."""
    if len(line) > 64:
        return None, 72
    name, tab, digits = line.partition(b"\t")
    if name not in NAMES and name not in RETIRED:
        return None, 73
    if not tab or len(digits) != 16 or any(d not in b"0123456789abcdef" for d in digits):
        return None, 75
    if name in RETIRED:
        return None, 53
    a = NAMES[name](struct.unpack(">d", bytes.fromhex(digits.decode()))[0])
    if not -0.5 <= a <= 0.0:
        return None, 52
    size = -Fraction(a) * 2**32
    whole = math.floor(size)
    return -(whole + (2 * (size - whole) >= 1)), 0


def answers(data):
    lines = data.split(b"\n")
    out = b""
    for number, line in enumerate(lines, 1):
        last = number == len(lines)
        if last and not line:
            break
        bits, refused = line_bits(line)
        if last:
            refused = 72 if len(line) > 64 else 77
        if refused:
            return out + b"bad\t%d\t%d\n" % (number, refused)
        out += b"%d\n" % bits
    return out


def double(rng, name, wild):
    if wild and rng.random() < 0.1:
        return rng.choice(EDGES)
    a = -rng.choice([rng.random() / 2, (rng.getrandbits(rng.randint(1, 31)) + rng.choice([0.5, 0.0])) * 2.0**-32, 2.0 ** -rng.randint(1, 1074)])
    for _ in range(rng.choice([0, 0, 1])):
        a = max(-0.5, math.nextafter(a, rng.choice([-1.0, 0.0])))
    return {b"A": a + 1.0, b"B": -a, b"D": -1.0 - a}.get(name, a)


def generated(rng):
    wild = rng.random() < 0.5
    data = b""
    for _ in range(rng.choice([0, 1, 3, 10, 40, 300])):
        name = rng.choice(RETIRED if wild and rng.random() < 0.02 else list(NAMES))
        data += name + b"\t" + struct.pack(">d", double(rng, name, wild)).hex().encode() + b"\n"
    for _ in range(rng.choice([0, 0, 0, 0, 0, 1, 1, 2])):
        data = damaged(rng, data)
    return data


def main():
    count = int(sys.argv[1]) if len(sys.argv) > 1 else 5000
    program = sys.argv[2] if len(sys.argv) > 2 else os.path.join(HERE, "coefficients")
    ended = differ = lines = 0
    for i in range(count):
        rng = random.Random("coefficients %d" % i)
        data = generated(rng)
        want = answers(data)
        ended += b"bad" not in want
        lines += want.count(b"\n")
        for parts in [cuts(rng, data), singly(data)]:
            if answered(program, data, parts) != want:
                differ += 1
                print("input", i, "differs")
    print("%d inputs, %d to the end and %d refused, %d lines answered: %d differ" % (count, ended, count - ended, lines, differ))


if __name__ == "__main__":
    main()
