#!/usr/bin/env python3
"""What the proved recorder's program costs beside a plain Rust twin (twin.rs): instructions a word, on x86-64.

    tools/build record && python3 bench/record/bench.py

Both are given the same words and must give the same bytes. Instructions are counted by valgrind's callgrind; the difference between
a long input and a short one is divided by the words between them, so that starting up counts nothing. Wants rustc and valgrind.
"""
import os
import re
import subprocess
import sys
import tempfile

HERE = os.path.dirname(os.path.abspath(__file__))
ROOT = os.path.dirname(os.path.dirname(HERE))
sys.path.insert(0, os.path.join(ROOT, "samples"))


def words(order, delay, rate, count):
    lines = [b"o00000000%08x\n" % (order << 24 | delay << 16 | rate)]
    phase = 0
    for k in range(count):
        phase += 0x0123_4567 + (k * k * 40503 & 0xFFFF)
        lines.append(b"w%08x%08x\n" % (k + 1, phase & 0xFFFF_FFFF))
    return b"".join(lines)


def counted(program, data, work):
    report = os.path.join(work, "callgrind")
    run = subprocess.run(["valgrind", "--tool=callgrind", "--callgrind-out-file=" + report, program], input=data, capture_output=True)
    return int(re.search(r"Collected : (\d+)", run.stderr.decode()).group(1)), run.stdout


def main():
    program = os.path.join(ROOT, "target", "bin", "record")
    with tempfile.TemporaryDirectory() as work:
        twin = os.path.join(work, "twin")
        subprocess.run(["rustc", "-C", "opt-level=3", "-o", twin, os.path.join(HERE, "twin.rs")], check=True)
        print("| N, M, rate | instructions a word, proved and Rust | against the Rust's |\n|---|---|---|")
        for order, delay, rate in [(3, 1, 0), (3, 1, 63), (8, 8, 63)]:
            each = []
            short, long = words(order, delay, rate, 2000), words(order, delay, rate, 22000)
            answers = []
            for p in (program, twin):
                few, _ = counted(p, short, work)
                many, gave = counted(p, long, work)
                each.append((many - few) / 20000)
                answers.append(gave)
            if answers[0] != answers[1]:
                sys.exit("the two answer differently")
            print("| %d, %d, %d | %.1f and %.1f | %.2f |" % (order, delay, rate, each[0], each[1], each[0] / each[1]))


main()
