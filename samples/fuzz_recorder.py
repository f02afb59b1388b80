#!/usr/bin/env python3
"""Runs of the recorder's program against the model: random words and events, then damage of every kind.

  samples/fuzz_recorder.py PROGRAM [RUNS [SEED]]

A run is a whole input. Prints by which numbers the runs were refused (end: not), and stops at the first that differs, which it leaves in recorder.differs.
"""
import collections, random, subprocess, sys
from recorder_model import Recorder, record, signed

program = sys.argv[1]
runs = int(sys.argv[2]) if len(sys.argv) > 2 else 1000
rng = random.Random(int(sys.argv[3]) if len(sys.argv) > 3 else 1)


def line(kind, number, argument):
    return b"%s%08x%08x\n" % (kind, number % (1 << 32), argument % (1 << 32))


def walk():
    """A recording: its records in order."""
    order, delay = rng.choice([0, 1, 1, 2, 3, 8]), rng.choice([1, 1, 2, 3, 8])
    rate = rng.choice([0, 1, 2, 3, 7])
    r = Recorder(order, delay, rate)
    lines = [line(b"o", 0, order << 24 | delay << 16 | rate)]
    phase, speed = rng.getrandbits(32), rng.choice([0, 1, 1 << 20, 1 << 30, -(1 << 30), (1 << 31) - 1])
    if rng.random() < 0.3:
        r.inputs = rng.choice([(1 << 32) - 3, (1 << 64) - 4, (1 << 63)])
        r.countdown = rng.randrange(5)
        r.sums = [signed(rng.getrandbits(64)) for _ in range(8)]
        r.combs = [signed(rng.getrandbits(64)) for _ in range(64)]
        lines = [r.line()]
        r.since(order * delay)
    for _ in range(rng.randrange(4, 40)):
        kind = rng.choices("wwwwwwwwrpqs", k=1)[0]
        if kind == "w":
            for _ in range(rng.randrange(1, 12)):
                phase += speed + rng.randrange(-1000, 1000)
                lines.append(line(b"w", r.inputs + 1, phase))
                if r.plugged and r.inputs < (1 << 64) - 1:
                    r.word(phase % (1 << 32))
        elif kind == "r":
            r.set_rate(rng.choice([0, 1, 2, 5]))
            lines.append(line(b"r", r.inputs, r.rate))
        elif kind == "p":
            lines.append(line(b"p", r.inputs, 0))
            phase += rng.getrandbits(32)
            if rng.random() < 0.9:
                lines.append(line(b"q", r.inputs, 0))
                r.push()
            else:
                r.plugged = False
        elif kind == "q":
            r.push()
            lines.append(line(b"q", r.inputs, 0))
        else:
            lines.append(line(b"s", r.inputs, 0))
            if rng.random() < 0.5:
                lines.append(r.line())
                r.plugged = True
                r.since(r.order * r.delay)
    return lines


def damaged(lines):
    how = rng.randrange(6)
    at = rng.randrange(len(lines))
    if how == 0:
        return b"".join(lines)
    if how == 1:
        return b"".join(lines[:at] + lines[at + 1 :])
    if how == 2:
        return b"".join(lines[: at + 1] + lines[at:])
    if how == 3:
        data = b"".join(lines)
        return data[: rng.randrange(len(data) + 1)]
    if how == 4:
        long = [i for i, l in enumerate(lines) if len(l) > 18]
        at = rng.choice(long) if long and rng.random() < 0.7 else at
        l = bytearray(lines[at])
        i = rng.randrange(len(l))
        l[i] = rng.choice([l[i] ^ 1 << rng.randrange(8), rng.choice(b"0123456789abcdef"), rng.randrange(256)])
        return b"".join(lines[:at] + [bytes(l)] + lines[at + 1 :])
    data = bytearray(b"".join(lines))
    i = rng.randrange(len(data))
    del data[i : i + rng.randrange(1, 30)]
    return bytes(data)


numbers = collections.Counter()
for run in range(runs):
    data = damaged(walk())
    want = record(data)
    got = subprocess.run([program], input=data, stdout=subprocess.PIPE).stdout
    if got != want:
        open("recorder.differs", "wb").write(data)
        sys.exit("run %d differs:\n%r\n%r" % (run, got[-300:], want[-300:]))
    last = want.rsplit(b"\n", 2)[-2].split(b"\t")
    numbers[last[2].decode() if last[0] == b"bad" else "end"] += 1
print(runs, "runs the same:", dict(sorted(numbers.items())))
