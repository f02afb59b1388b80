#!/usr/bin/env python3
"""Holds the program `settings` against settings_model.py on drawn stores of either form, good and damaged, each checked, copied and
moved forth and back: whole, in random parts, and byte by byte. Every good store of form 1 that is moved forth must come back as the
same bytes, and as other ones exactly where it holds e or f. The last ones are longer than the program's buffer.

    python3 samples/fuzz_settings.py [COUNT] [PROGRAM]     (5000 inputs; target/bin/settings, or samples/settings on another processor)
"""
import os
import random
import subprocess
import sys

import settings_model as model
from fuzz import HERE, damaged

LETTERS = b"abcdefghijklmnopqrstuvwxyz"
EDGES = [0, 1, 8, 9, 63, 65535, 65536, 2**31 - 1, 2**31, 2**32 - 1, 2**32, -1, -(2**31), -(2**31) - 1]


def drawn(rng, least, most, wild):
    return rng.choice(EDGES) if wild and rng.random() < 0.1 else rng.randint(least, most)


def line(rng, name, wild, form, dithers):
    if form == 2 and rng.random() < dithers or wild and rng.random() < 0.01:
        low, high = sorted(drawn(rng, -(2**31), 2**31 - 1, wild) for _ in range(2))
        if wild and rng.random() < 0.1:
            low, high = high, low
        numbers = [drawn(rng, 1, 31, wild)] + [drawn(rng, -(2**31), 2**31 - 1, wild) for _ in range(6)] + [low, high]
        return b"\t".join([b"dither", name] + [b"%d" % n for n in numbers])
    if rng.random() < 0.5:
        third = drawn(rng, form - 1, 65534 + form, wild)
        return b"cic\t%s\t%d\t%d\t%d" % (name, drawn(rng, 0, 8, wild), drawn(rng, 1, 8, wild), third)
    k = rng.choice([0, 1, 2, 8, 9, 10]) if wild and rng.random() < 0.2 else rng.randint(0, 8)
    most = 15 if rng.random() < 0.1 else 13
    digits = b"".join((b"%X" if wild and rng.random() < 0.01 else b"%x") % rng.randint(0, most) for _ in range(k)) or b"-"
    fields = [b"wdf", name, b"%d" % k, digits] + [b"%d" % drawn(rng, -(2**31), 2**31 - 1, wild) for _ in range(k)]
    return b"\t".join(fields)


def generated(rng):
    wild = rng.random() < 0.6
    count = rng.choice([0, 1, 2, 5, 20, 63, 64, 64, 65, 66, 70])
    names = set()
    while len(names) < count:
        names.add(bytes(rng.choice(LETTERS) for _ in range(rng.choice([1, 2, 3, 16, 17 if wild and rng.random() < 0.05 else 4]))))
    names = sorted(names)
    if wild and count > 1 and rng.random() < 0.2:
        i = rng.randrange(count - 1)
        names[i] = names[i + 1] if rng.random() < 0.5 else names[i] + b"z"
    form, dithers = rng.choice([1, 1, 2]), rng.choice([0, 0, 0.3])
    data = b"".join(l + b"\n" for l in [b"set\t%d" % form] + [line(rng, n, wild, form, dithers) for n in names])
    for _ in range(rng.choice([0, 0, 0, 0, 0, 1, 1, 2])):
        data = damaged(rng, data)
    if wild and rng.random() < 0.1:
        data = data[:-1]
    return data


def long_ones(rng):
    """Inputs longer than the program's buffer: a long first line, a long record, many good records, and noise behind a store."""
    store = b"set\t1\n" + b"".join(b"cic\t%c%c\t1\t1\t1\n" % (a, b) for a in LETTERS for b in LETTERS)
    full = b"set\t1\n" + b"".join(b"wdf\t%s%c%c\t8\t12345678%s\n" % (b"a" * 14, 97 + i // 26, 97 + i % 26, b"\t-2147483648" * 8) for i in range(70))
    for data in [b"set\t1" * 5000, b"set\t1\n" + b"c" * 40000, store * 2, full + b"\n" * 40000, full[:-1] + b"x" * 40000, b"\n" * 40000]:
        yield data
        cut = rng.randrange(16000, 17000)
        yield data[:cut]


def answered(program, word, parts):
    """The program at a pipe that gives these parts, one to a read."""
    into, out_of = os.pipe2(os.O_DIRECT | os.O_CLOEXEC)
    run = subprocess.Popen([program] + word, stdin=into, stdout=subprocess.PIPE)
    os.close(into)
    try:
        for part in parts:
            os.write(out_of, part)
    except BrokenPipeError:
        pass
    os.close(out_of)
    return run.communicate()[0]


def cuts(rng, data):
    parts, at = [], 0
    while at < len(data):
        size = rng.choice([1, 2, 7, 100, 160, 161, 1000, 4000])
        parts.append(data[at:at + size])
        at += size
    return parts


def main():
    count = int(sys.argv[1]) if len(sys.argv) > 1 else 5000
    program = sys.argv[2] if len(sys.argv) > 2 else os.path.join(HERE, "settings")
    numbers, differ, round_trips, others = {}, 0, 0, 0
    drawn_inputs = [(i, random.Random("settings %d" % i)) for i in range(count)]
    inputs = [(i, rng, generated(rng)) for i, rng in drawn_inputs]
    inputs += [("long %d" % i, random.Random(i), data) for i, data in enumerate(long_ones(random.Random("long")))]
    for i, rng, data in inputs:
        want = model.checked(data)
        number = want.split()[2] if want.startswith(b"bad") else b"0"
        numbers[int(number)] = numbers.get(int(number), 0) + 1
        ways = [cuts(rng, data)] + ([[data[j:j + 1] for j in range(len(data))]] if len(data) < 400 else [])
        for parts in ways:
            moves = [(["forth"], model.forth(data)), (["back"], model.back(data))]
            for word, answer in [([], want), (["check"], want), (["copy"], model.copied(data))] + moves:
                if answered(program, word, parts) != answer:
                    differ += 1
                    print("input", i, "differs with", word)
        if want.startswith(b"ok\t1"):
            there = answered(program, ["forth"], cuts(rng, data))
            again = answered(program, ["back"], cuts(rng, there))
            round_trips += 1
            others += model.holds_retired(data)
            if again != model.back(model.forth(data)) or (again != data) != model.holds_retired(data):
                differ += 1
                print("input", i, "does not come back")
    told = " ".join("%d: %d" % n for n in sorted(numbers.items()))
    print("%d inputs, %d of them forth and back, %d of those with e or f: %d differ; by number %s" % (len(inputs), round_trips, others, differ, told))


if __name__ == "__main__":
    main()
