#!/usr/bin/env python3
"""A shaft turned by hand: the words that its encoder gives, with the plug pulled and pushed back, through the recorder.

  samples/shaft.py            writes the recording and its expected answer: crates/record/stdin, stdout
  samples/shaft.py --draw     draws samples/shaft.png too (Debian's python3-matplotlib)

The answer is the model's (recorder_model.py), which works out each output that is told 0 a second time as the moving sum of the turns.
How many outputs it takes after the plug is pushed back until the trace is the moving sum is counted here and must be N·M.
"""
import math, os, sys
from recorder_model import Recorder, moving_sum, record, signed

HERE = os.path.dirname(os.path.abspath(__file__))
N, M, R = 3, 2, 8
TURN = 1 << 29  # counts of a turn: a word holds eight turns


def line(kind, number, argument):
    return b"%s%08x%08x\n" % (kind, number % (1 << 32), argument % (1 << 32))


def shaft(t):
    """Where the shaft stands after t words, in turns: a start, steady turning with torsion on top, then the other way."""
    speed = [(0, 0.0), (100, 0.09), (500, 0.09), (600, -0.07), (1100, -0.07)]
    at = 0.0
    for (a, u), (b, v) in zip(speed, speed[1:]):
        s = min(max(t - a, 0), b - a)
        at += u * s + (v - u) * s * s / (2 * (b - a))
    return at + 0.02 * math.sin(t / 7) * min(t / 100, 1)


lines, trace, position = [], [], []
r = Recorder(N, M, R - 1)
lines.append(line(b"o", 0, N << 24 | M << 16 | R - 1))


def turn(words, t):
    """So many words of the shaft from the time t on."""
    for k in range(t, t + words):
        word = round(shaft(k) * TURN)
        lines.append(line(b"w", r.inputs + 1, word))
        position.append((k, word / TURN))
        y = r.word(word % (1 << 32))
        if y:
            trace.append((k, *y, moving_sum(r.turns, R * M, N, len(r.turns) - 1)))


turn(335, 0)
lines.append(line(b"p", r.inputs, 0))
lines.append(line(b"q", r.inputs, 0))
r.push()
pushed = len(trace)
turn(270, 420)
state = r.line()
lines += [line(b"s", r.inputs, 0), state]
r.since(N * M)
resumed = len(trace)
turn(200, 690)
lines.append(line(b"r", r.inputs, R - 1))
r.set_rate(R - 1)
turn(100, 890)

for first in (pushed, resumed):
    after = trace[first:]
    wrong = next(i for i, (_, value, told, number, right) in enumerate(after) if value == signed(right))
    assert wrong == N * M and [told for _, _, told, _, _ in after[: wrong + 1]] == list(range(N * M, -1, -1))
whole = b"".join(lines)
answer = record(whole)
assert answer.endswith(b"end\t905\n") and len({w >> 29 for w in (round(p * TURN) for _, p in position)}) > 8
print("after the plug is pushed back, and after the saved state is resumed: %d outputs until the trace is right, N·M = %d" % (wrong, N * M))
for name, data in [("stdin", whole), ("stdout", answer)]:
    with open(os.path.join(HERE, "..", "crates", "record", name), "wb") as out:
        out.write(data)

if "--draw" in sys.argv:
    import matplotlib

    matplotlib.use("Agg")
    import matplotlib.pyplot as plt

    gain = (R * M) ** N
    fig, (top, low) = plt.subplots(2, 1, sharex=True, figsize=(7, 4.2))
    top.plot([t for t, _ in position], [p for _, p in position], ".", ms=1.5, color="0.3")
    top.set_ylabel("shaft, turns")
    good = [(t, v / gain / TURN) for t, v, told, _, _ in trace if told == 0]
    bad = [(t, v / gain / TURN) for t, v, told, _, _ in trace if told]
    low.plot(*zip(*good), ".", ms=3, color="tab:blue", label="told 0")
    low.plot(*zip(*bad), "x", ms=5, color="tab:red", label="told %d to 1" % (N * M))
    low.set_ylabel("output / gain, turns")
    low.set_ylim(top.get_ylim())
    low.set_xlabel("time, words")
    low.legend(loc="lower center")
    for ax in (top, low):
        ax.axvspan(335, 420, color="0.9")
        ax.text(377, ax.get_ylim()[1] * 0.9, "plug out", ha="center", va="top", fontsize=8)
    fig.tight_layout()
    fig.savefig(os.path.join(HERE, "shaft.png"), dpi=80)
