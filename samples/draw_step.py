#!/usr/bin/env python3
"""Draws a filter's answer to a step: a point for each output, the step's height as a line.

    target/bin/lattice | python3 samples/draw_step.py 16777216 samples/butterworth.svg

Reads what the program `lattice` prints: three coefficients' bits, then an output on each line. Wants matplotlib (Debian: python3-matplotlib).
"""
import sys

import matplotlib

matplotlib.use("Agg")
matplotlib.rcParams.update({"svg.fonttype": "none", "svg.hashsalt": "mittenload"})
import matplotlib.pyplot as plot


def draw(bits, outputs, height, to):
    figure, axes = plot.subplots(figsize=(9.6, 3.6))
    figure.subplots_adjust(left=0.11, right=0.97, top=0.88, bottom=0.15)
    axes.axhline(0, color="#444444", linewidth=0.8)
    axes.axhline(height, color="#c0392b", linewidth=0.9, linestyle="--", label="the step, {:,}".format(height))
    axes.plot(range(len(outputs)), outputs, "o-", color="#1f4e79", markersize=3, linewidth=1.1, label="outputs")
    high = outputs.index(max(outputs))
    axes.annotate("output {}: {:,}".format(high, outputs[high]), (high, outputs[high]), (high + 2, 1.09 * height), fontsize=8)
    axes.annotate("output {}: {:,}".format(len(outputs) - 1, outputs[-1]), (len(outputs) - 1, outputs[-1]), (len(outputs) - 1, 0.9 * height), fontsize=8, ha="right")
    axes.set_title("Butterworth low pass of order 3: answer to a step; coefficients %s" % ", ".join(map(str, bits)), fontsize=10, loc="left")
    axes.set_xlabel("number of the output, from 0", fontsize=9)
    axes.set_ylabel("output, millions", fontsize=9)
    axes.yaxis.set_major_formatter(lambda at, _: "%g" % (at / 1e6))
    axes.set_ylim(-0.05 * height, 1.2 * height)
    axes.tick_params(labelsize=8)
    axes.grid(True, alpha=0.25)
    axes.legend(loc="lower right", fontsize=8)
    figure.savefig(to, metadata={"Date": None} if to.endswith(".svg") else None, dpi=110)


if __name__ == "__main__":
    lines = [int(line) for line in sys.stdin]
    draw(lines[:3], lines[3:], int(sys.argv[1]), sys.argv[2])
