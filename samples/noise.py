#!/usr/bin/env python3
"""What the clock stage does to its input (document 02, A14), from the outputs of the program clock_stage (`tools/build clock_stage`).

    python3 samples/noise.py samples/noise.png    draws the spectra of K = 1, 2, 3 on a small constant (wants matplotlib, Debian's
                                                  python3-matplotlib)
    python3 samples/noise.py --bound              for each K the run that leaves its input farthest behind, of all runs of K + 1 inputs
                                                  under which the last accumulator is 0 or 2^32 - 1

Both hold every output to the equation: 2^32 times it is its input less the K-th backward difference of the last accumulator.
"""
import itertools
import os
import subprocess
import sys

ROOT = os.path.dirname(os.path.dirname(os.path.abspath(__file__)))
WORD = 1 << 32


def program(runs):
    """For each run (K, inputs) its outputs and last accumulators."""
    words = [w for order, inputs in runs for w in [order, len(inputs)] + inputs]
    text = "".join("%08x\n" % w for w in words)
    lines = subprocess.check_output([os.path.join(ROOT, "target", "bin", "clock_stage")], input=text.encode()).split(b"\n")
    pairs = iter([tuple(int(n) for n in line.split()) for line in lines if line])
    given = [list(itertools.islice(pairs, len(inputs))) for _, inputs in runs]
    for (order, inputs), pairs in zip(runs, given):
        held([a for _, a in pairs], [y for y, _ in pairs], order, inputs)
    return given


def differences(values, order):
    for _ in range(order):
        values = [b - a for a, b in zip([0] + values, values)]
    return values


def held(accumulators, outputs, order, inputs):
    for x, y, d in zip(inputs, outputs, differences(accumulators, order)):
        assert WORD * y == x - d, "the equation fails"


def bound():
    for order in range(1, 9):
        runs = [(order, [d % WORD for d in differences(list(corner), order)]) for corner in itertools.product([0, WORD - 1], repeat=order + 1)]
        most = (0,)
        for (_, inputs), pairs in zip(runs, program(runs)):
            for n, (x, (y, _)) in enumerate(zip(inputs, pairs)):
                most = max(most, (abs(WORD * y - x), -n, y, x))
        short = (1 << (31 + order)) - most[0]
        print("K %d: output %d at input %08x, number %d: %d apart, %d short of 2^%d" % (order, most[2], most[3], 1 - most[1], most[0], short, 31 + order))


def draw(to):
    import matplotlib
    matplotlib.use("Agg")
    import matplotlib.pyplot as plot
    import numpy

    constant, steps = 12345679, 16384
    window = numpy.hanning(steps)
    frequency = numpy.arange(steps // 2 + 1) / steps
    edges = numpy.logspace(numpy.log10(6 / steps), numpy.log10(0.5), 90)
    places = [numpy.flatnonzero((frequency >= a) & (frequency < b)) for a, b in zip(edges, edges[1:])]
    places = [p for p in places if len(p)]
    middle = numpy.array([frequency[p].mean() for p in places])

    def power(values):
        """Power density in parts of the range between the edges."""
        bins = numpy.abs(numpy.fft.rfft((values - numpy.mean(values)) * window)) ** 2 / numpy.sum(window ** 2)
        return numpy.array([bins[p].mean() for p in places])

    def slope(db):
        low = middle < 0.1
        return numpy.polyfit(numpy.log10(middle[low]), db[low], 1)[0]

    figure, (left, right) = plot.subplots(1, 2, figsize=(10, 4.4), sharex=True)
    for order, colour in [(1, "tab:blue"), (2, "tab:orange"), (3, "tab:green")]:
        pairs = program([(order, [constant] * steps)])[0]
        outputs = numpy.array([y for y, _ in pairs], dtype=float)
        last = numpy.array([a for _, a in pairs], dtype=float) / WORD
        noise = 10 * numpy.log10(power(outputs))
        shape = noise - 10 * numpy.log10(power(last))
        guide = 20 * order * numpy.log10(2 * numpy.sin(numpy.pi * middle))
        print("K %d: outputs %.1f dB a decade, over the last accumulator %.1f" % (order, slope(noise), slope(shape)))
        left.semilogx(middle, noise, color=colour, label="K = %d" % order)
        left.semilogx(middle, guide - 10 * numpy.log10(12), color=colour, linestyle=":", linewidth=1)
        right.semilogx(middle, shape, color=colour, label="K = %d: %.0f dB a decade" % (order, slope(shape)))
        right.semilogx(middle, guide, color="black", linestyle=":", linewidth=1)
    left.set_title("the outputs' noise at the input %d of 2^32" % constant, fontsize=10)
    right.set_title("the same over the last accumulator's", fontsize=10)
    left.set_ylabel("power density in dB of a step of one")
    right.set_ylabel("ratio in dB")
    for side in (left, right):
        side.plot([], [], color="black", linestyle=":", linewidth=1, label="|2 sin(π frequency)|^K")
        side.set_xlabel("frequency, in parts of the clock")
        side.grid(True, which="major", alpha=0.3)
        side.axhline(0, color="#444444", linewidth=0.8)
        side.legend(loc="lower right", fontsize=9)
        side.set_ylim(-175, 25)
    figure.tight_layout()
    figure.savefig(to, dpi=80)


if __name__ == "__main__":
    bound() if sys.argv[1:] == ["--bound"] else draw(sys.argv[1])
