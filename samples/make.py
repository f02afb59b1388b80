#!/usr/bin/env python3
"""Makes the recordings of this folder and what each must give, and what the gate runs the replay program on; of plug_left_in the answer alone.

    python3 samples/make.py

A sample is the number of encoder counts since the sample before, less 1500, but for long_run. The shaft turns once in 640 samples, at 1500.37
counts a sample. What a recording must give is worked out by model.py.
"""
import math
import os

from model import replay

HERE = os.path.dirname(os.path.abspath(__file__))
TURN = 640
MEAN = 0.37
ORDERS = [(1.5, 120.0), (4.0, 45.0)]


def counts(start, stop, orders):
    """Whole numbers whose sum follows the shaft: each sample is the difference of two rounded positions."""

    def position(k):
        swing = sum(a * math.sin(2 * math.pi * o * k / TURN) * TURN / (2 * math.pi * o) for o, a in orders)
        return math.floor(MEAN * k + swing + 0.5)

    return [position(k + 1) - position(k) for k in range(start, stop)]


def lines(samples):
    return ["x\t%d" % v for v in samples]


def steady():
    """An even shaft, decimated by 64."""
    return ["cic\t3\t1\t63"] + lines(counts(0, 2560, []))


def torsion():
    """Torsional vibration at orders 1.5 and 4, decimated by 16."""
    return ["cic\t3\t1\t15"] + lines(counts(0, 2 * TURN, ORDERS))


def pulled_plug():
    """The plug is pulled for a quarter turn, from sample 641 on: the samples freeze, and jump at 801, when it is pushed back. The operator's
    `rate` record follows 809. Outputs 41 to 51 (samples 641 to 801) are false and told 0: nobody had told the filter. Of the next N·M = 6,
    told 6 down to 1, all but the last are false too. From output 58 on all is right and told 0. Outputs 1 to 6 have zeros from before the
    start in them, told 0 as well."""
    before = counts(0, TURN, ORDERS)
    frozen = [before[-1]] * 160
    after = counts(TURN + 160, 2 * TURN, ORDERS)
    jump = after[0] + sum(counts(TURN, TURN + 160, ORDERS)) - sum(frozen)
    return ["cic\t3\t2\t15"] + lines(before + frozen + [jump] + after[1:9]) + ["rate\t15"] + lines(after[9:])


def plug_left_in():
    """The same shaft through the same filter, the plug never pulled: what pulled_plug should have given."""
    return ["cic\t3\t2\t15"] + lines(counts(0, 2 * TURN, ORDERS))


def long_run():
    """A long-run encoder: each sample is the position itself, of 41 bits, not the counts since the sample before. Decimated by 16, the
    gain of 4,096 brings the outputs to 53 bits."""
    positions, at = [], 1 << 40
    for step in counts(0, 2 * TURN, ORDERS):
        at += 1500 + step
        positions.append(at)
    return ["cic64\t3\t1\t15"] + lines(positions)


def main():
    with open(os.path.join(HERE, "plug_left_in.out"), "wb") as out:
        out.write(replay(("\n".join(plug_left_in()) + "\n").encode()))
    for name, record in [("steady", steady), ("torsion", torsion), ("pulled_plug", pulled_plug), ("long_run", long_run)]:
        recording = ("\n".join(record()) + "\n").encode()
        answer = replay(recording)
        paths = [(os.path.join(HERE, name + ".txt"), recording), (os.path.join(HERE, name + ".out"), answer)]
        if name == "pulled_plug":
            crate = os.path.join(HERE, "..", "crates", "replay")
            paths += [(os.path.join(crate, "stdin"), recording), (os.path.join(crate, "stdout"), answer)]
        for path, data in paths:
            with open(path, "wb") as out:
                out.write(data)


if __name__ == "__main__":
    main()
