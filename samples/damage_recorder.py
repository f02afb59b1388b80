#!/usr/bin/env python3
"""Every cut of a short recording, every word of it lost or doubled, and every byte of a saved state changed, against the model.

  samples/damage_recorder.py PROGRAM [ALL]

A changed byte is tried with three values: a bit turned, another digit, and a letter that is none; with ALL, with all 255. Stops at the first
that differs, which it leaves in recorder.differs.
"""
import collections, subprocess, sys
from recorder_model import Recorder, record

program, every = sys.argv[1], len(sys.argv) > 2
N, M, R = 2, 1, 3


def line(kind, number, argument):
    return b"%s%08x%08x\n" % (kind, number % (1 << 32), argument % (1 << 32))


def words(r, count, phase):
    """So many words of a shaft that turns on, taken by r."""
    lines = []
    for k in range(count):
        phase += 0x2345_6789
        lines.append(line(b"w", r.inputs + 1, phase))
        r.word(phase % (1 << 32))
    return lines


r = Recorder(N, M, R - 1)
lines = [line(b"o", 0, N << 24 | M << 16 | R - 1)] + words(r, 10, 0)
lines += [line(b"p", 10, 0), line(b"q", 10, 0)]
r.push()
lines += words(r, 10, 1 << 31) + [line(b"s", 20, 0)]
state = r.line()
r.since(N * M)
after = words(r, 12, 5 << 28)

whole = b"".join(lines)
inputs = {"cut": [whole[:k] for k in range(len(whole) + 1)]}
inputs["record lost or doubled"] = [b"".join(lines[:k] + copies * [lines[k]] + lines[k + 1 :]) for k in range(len(lines)) for copies in (0, 2)]
changed = []
for i, b in enumerate(state):
    values = set(range(256)) if every else {b ^ 1, ord("f") if b != ord("f") else ord("0"), ord("g")}
    changed += [state[:i] + bytes([v]) + state[i + 1 :] + b"".join(after) for v in values - {b}]
inputs["byte of a saved state changed"] = changed
inputs["saved state as it is"] = [state + b"".join(after)]

for name, all_of in inputs.items():
    numbers = collections.Counter()
    for data in all_of:
        want = record(data)
        got = subprocess.run([program], input=data, stdout=subprocess.PIPE).stdout
        if got != want:
            open("recorder.differs", "wb").write(data)
            sys.exit("%s: differs\n%r\n%r" % (name, got[-300:], want[-300:]))
        last = want.rsplit(b"\n", 2)[-2].split(b"\t")
        numbers[last[2].decode() if last[0] == b"bad" else "end"] += 1
    print("%s: %d the same" % (name, len(all_of)), dict(sorted(numbers.items())))
