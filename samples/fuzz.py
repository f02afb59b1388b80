#!/usr/bin/env python3
"""Holds the replay program against model.py on generated inputs, good and damaged: each whole or in random parts, and byte by byte.

    python3 samples/fuzz.py [COUNT] [PROGRAM]     (20000 inputs; target/bin/replay, by samples/run)

A pipe in packet mode gives each write to one read, so the cuts are where they are drawn. The recordings beside this file, a live
pipe, and reads and writes that fail come first.
"""
import functools
import multiprocessing
import os
import random
import subprocess
import sys

from model import replay

HERE = os.path.dirname(os.path.abspath(__file__))
EDGES = [0, 1, 2, 9, 10, 2**31 - 1, 2**31, 2**32 - 1, 2**32, 2**63, 2**64, 65535, 65536]


def sample(rng, bits):
    """Of at most so many bits, of few as often as of many."""
    return str(rng.randint(-(2 ** rng.randint(0, bits - 1)), 2 ** rng.randint(0, bits - 1) - 1))


def number(rng, bits):
    kind = rng.random()
    if kind < 0.75:
        return sample(rng, bits)
    if kind < 0.97:
        return str(rng.choice([1, 1, -1]) * rng.choice(EDGES) + rng.choice([0, 0, 1, -1]))
    return rng.choice(["", "-", "+1", "01", "-0", "00", "1e3", " 1", "1 ", "0x1", "9" * rng.randint(1, 60)])


def line(rng, wild, bits):
    kind = rng.random() * (1 if wild else 0.92)
    if kind < 0.86:
        return "x\t" + sample(rng, bits)
    if kind < 0.90:
        return "rate\t%d" % rng.choice([0, 0, 1, 2, 3, 7, rng.randint(0, 70000 if wild else 65535)])
    if kind < 0.92:
        return "clear"
    if kind < 0.97:
        return "x\t" + number(rng, bits)
    fields = [number(rng, bits) for _ in range(rng.randint(0, 4))]
    return "\t".join([rng.choice(["cic", "cic64", "rate", "x", "clear", "", "X", "cicc", "cic6", "cic640"])] + fields)


def damaged(rng, data):
    """A byte changed, put in or taken out, a stretch repeated, or the end cut off."""
    at = rng.randint(0, len(data))
    byte = bytes([rng.choice([0, 9, 10, 13, 32, 43, 45, 48, 49, 120, 255, rng.randint(0, 255)])])
    return rng.choice([
        data[:at] + byte + data[at + 1:],
        data[:at] + byte + data[at:],
        data[:at] + data[at + 1:],
        data[:at] + byte * rng.randint(2, 80) + data[at:],
        data[:at],
    ])


def generated(rng):
    """Half of the inputs are drawn valid, half wild; three in eight of each are then damaged."""
    wild = rng.random() < 0.5
    order, delay = rng.choice([0, 1, 1, 2, 3, 3, 5, 8] + [9] * wild), rng.choice([1, 1, 1, 2, 3, 8] + [0] * wild)
    name, bits = rng.choice([("cic", 32), ("cic64", 64)])
    head = [] if wild and rng.random() < 0.1 else ["%s\t%d\t%d\t%d" % (name, order, delay, rng.choice([0, 0, 1, 2, 3, 15, 63]))]
    lines = head + [line(rng, wild, bits) for _ in range(rng.choice([0, 1, 3, 10, 40, 200]))]
    data = "".join(l + "\n" for l in lines).encode()
    for _ in range(rng.choice([0, 0, 0, 0, 0, 1, 1, 2])):
        data = damaged(rng, data)
    return data


def singly(data):
    return [data[i:i + 1] for i in range(len(data))]


def cuts(rng, data):
    """The parts in which the program is to read the data; none for the whole."""
    if rng.random() < 0.3:
        return None
    parts, at = [], 0
    while at < len(data):
        size = rng.choice([1, 2, 5, 64, 65, 66, 500, 4000])
        parts.append(data[at:at + size])
        at += size
    return parts


def answered(program, data, parts):
    if parts is None:
        return subprocess.run(program, input=data, stdout=subprocess.PIPE).stdout
    into, out_of = os.pipe2(os.O_DIRECT | os.O_CLOEXEC)
    run = subprocess.Popen(program, stdin=into, stdout=subprocess.PIPE)
    os.close(into)
    try:
        for part in parts:
            os.write(out_of, part)
    except BrokenPipeError:
        pass
    os.close(out_of)
    return run.communicate()[0]


def recorded(program):
    """Each recording gives the output that stands beside it."""
    for name in ["steady", "torsion", "pulled_plug", "long_run"]:
        with open(os.path.join(HERE, name + ".txt"), "rb") as given, open(os.path.join(HERE, name + ".out"), "rb") as want:
            assert subprocess.run(program, stdin=given, stdout=subprocess.PIPE).stdout == want.read(), name


def live(program):
    """What has been answered is there before more is asked for; a line is refused at its 65th byte, the pipe still open."""
    run = subprocess.Popen(program, stdin=subprocess.PIPE, stdout=subprocess.PIPE, bufsize=0)
    run.stdin.write(b"cic\t0\t1\t0\nx\t5\nx")
    assert run.stdout.readline() == b"y\t5\t0\n"
    run.stdin.write(b"\t6\n")
    assert run.stdout.readline() == b"y\t6\t0\n"
    run.stdin.write(b"a" * 65)
    assert run.stdout.readline() == b"bad\t4\t72\t0\n" and run.wait() == 0
    run.stdin.close()
    run.stdout.close()


def failing(program):
    """A read or a write that fails stops the program, and it says no `end`; what it answered before stays."""
    run = subprocess.Popen(program, stdin=subprocess.DEVNULL, stdout=subprocess.PIPE, preexec_fn=lambda: os.close(0))
    assert run.communicate()[0] == b""
    into, out_of = os.pipe2(os.O_NONBLOCK)
    os.write(out_of, b"cic\t0\t1\t0\nx\t5\nx")
    run = subprocess.Popen(program, stdin=into, stdout=subprocess.PIPE)
    assert run.communicate(timeout=60)[0] == b"y\t5\t0\n"
    os.close(out_of)
    os.close(into)
    with open("/dev/full", "wb") as full:
        run = subprocess.Popen(program, stdin=subprocess.PIPE, stdout=full, bufsize=0)
        run.stdin.write(b"cic\t0\t1\t0\nx\t5\n")
        assert run.wait(timeout=60) == 1
        run.stdin.close()
    data = b"cic\t0\t1\t0\n" + b"x\t5\n" * 20000
    into, out_of = os.pipe2(os.O_NONBLOCK)
    run = subprocess.run(program, input=data, stdout=out_of, timeout=60)
    os.close(out_of)
    with open(into, "rb") as left:
        got = left.read()
    assert 0 < len(got) < 20000 * 6 and replay(data).startswith(got)


def tried(program, i):
    """Input i: whether it goes to the end or is refused, and where the program and the model differ."""
    rng = random.Random("2026 %d" % i)
    data = generated(rng)
    want = replay(data)
    for parts in [cuts(rng, data), singly(data)]:
        got = answered(program, data, parts)
        if want != got:
            differ = "input %d differs: %r in %s parts\nwant %r\ngot  %r" % (i, data, parts and len(parts), want[-200:], got[-200:])
            return b"bad", differ
    return want.split(b"\n")[-2][:3], ""


def main(count, program):
    recorded(program)
    live(program)
    failing(program)
    kinds = {b"end": 0, b"bad": 0}
    with multiprocessing.Pool() as pool:
        for kind, differ in pool.imap_unordered(functools.partial(tried, program), range(count), 20):
            if differ:
                print(differ)
                return 1
            kinds[kind] += 1
    print("%d inputs, each in parts and byte by byte, %d to the end and %d refused: 0 differ" % (count, kinds[b"end"], kinds[b"bad"]))
    return 0


if __name__ == "__main__":
    words = sys.argv[1:]
    sys.exit(main(int(words[0]) if words else 20000, words[1:] or [os.path.join(HERE, "run"), "replay"]))
