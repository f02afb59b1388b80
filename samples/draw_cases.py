#!/usr/bin/env python3
"""Holds samples/draw.py to its words: one output, none, a refusal, a cut line, the ends of 64 bits, many outputs, two answers, odd input.

    python3 samples/draw_cases.py      wants matplotlib
"""
import os
import re
import subprocess
import sys
import tempfile
import time

HERE = os.path.dirname(os.path.abspath(__file__))
DRAW = [sys.executable, os.path.join(HERE, "draw.py")]
BIG = 2**63


def drawn(text, *words):
    gave = subprocess.run(DRAW + list(words), input=text.encode(), stdout=subprocess.PIPE, stderr=subprocess.PIPE)
    return gave.returncode, gave.stdout.decode(errors="replace"), gave.stderr.decode()


def says(text, *wanted):
    status, picture, said = drawn(text)
    assert status == 0 and picture.endswith("</svg>\n") and len(picture) < 300_000, (status, said, len(picture))
    for words in wanted:
        assert words in picture, (words, text[:80])
    return picture


def outputs(values, at=(), count=6):
    lines, told = [], 0
    for i, v in enumerate(values):
        told = count if i in at else max(0, told - 1)
        lines.append("y\t%d\t%d\n" % (v if not told else 1000 * v, told))
    return "".join(lines) + "end\t%d\n" % len(lines)


def widths(picture):
    """Of the bands of unsettled outputs, in the picture's units."""
    found = re.findall(r'd="M ([\d.]+) [\d.]+ \nL ([\d.]+) [\d.]+ \nL ([\d.]+) [\d.]+ \nL ([\d.]+) [\d.]+ \n(?:L [\d. ]+\n)?z\n" clip-path="[^"]*" style="fill: #e07b00', picture)
    return [max(map(float, f)) - min(map(float, f)) for f in found]


def numbered():
    """The `x` record that each output stands for, held to the model's steps."""
    import random
    sys.argv[1:] = []
    from draw import Answer, Recording
    from model import Cic, replay
    rng = random.Random(5)
    with tempfile.TemporaryDirectory() as folder:
        path = os.path.join(folder, "recording")
        for _ in range(300):
            words = [3, rng.randint(1, 3), rng.choice([0, 1, 4, 15])]
            lines, cic, taken, want = ["cic\t%d\t%d\t%d" % tuple(words)], Cic(1 << 32, *words), 0, []
            for _ in range(rng.choice([0, 1, 30, 300])):
                kind = rng.random()
                if kind < 0.03:
                    rate = rng.choice([0, 1, 4, 15])
                    lines.append("rate\t%d" % rate)
                    cic.set_rate(rate)
                elif kind < 0.05:
                    lines.append("clear")
                    cic.clear()
                else:
                    lines.append("x\t%d" % rng.randint(-9, 9))
                    taken += 1
                    want += [taken] if cic.step(0) else []
            data = ("\n".join(lines) + "\n").encode()
            with open(path, "wb") as out:
                out.write(data)
            answer = Answer("a", replay(data))
            Recording(path).places(answer)
            assert answer.places.tolist() == want, (lines, answer.places, want)


def main():
    numbered()
    says("y\t5\t0\nend\t1\n", "1 output<")
    says("end\t0\n", "no output", "0 outputs")
    says("y\t5\t0\nbad\t4\t75\t2\n", "refused at line 4, field 2: 75, not a well-formed number")
    says("bad\t1\t73\t0\n", "no output", "73, unknown record")
    says("y\t5\t0\ny\t7\t0\ny\t-", "cut short", "half a line")
    says("", "cut short")
    says("y\t%d\t0\ny\t%d\t0\ny\t%d\t1\nend\t3\n" % (BIG - 1, -BIG, BIG - 1), "3 outputs")
    says(outputs(BIG // 2 + 3 * i for i in range(40)), "less %d" % (BIG // 2))
    wave = [(i * 7919 % 2001) - 1000 for i in range(20000)]
    for picture in [says(outputs(wave, {8000}), "6 unsettled off the scale"), says(outputs(wave[:900], {300})), says(outputs(wave[:60], {30}), ">6<", ">1<")]:
        assert widths(picture) and min(widths(picture)) >= 3, widths(picture)
    began = time.monotonic()
    says(outputs((i % 2001 for i in range(10**6)), {300000, 700000}, 64), "1000000 outputs")
    assert time.monotonic() - began < 30
    for text in ["z\n", "y\t1\t0\nend\t2\n", "end\t0\ny\t1\t0\n", "y\tx\t0\n", "y\t%d\t0\n" % BIG]:
        status, _, said = drawn(text)
        assert status == 2 and said.startswith("samples/draw.py: replay"), (text, said)
    with tempfile.TemporaryDirectory() as folder:
        plug, left_in = os.path.join(HERE, "pulled_plug.out"), os.path.join(HERE, "plug_left_in.out")
        for kind, begins in [("svg", b"<?xml"), ("png", b"\x89PNG"), ("pdf", b"%PDF")]:
            to = os.path.join(folder, "two." + kind)
            subprocess.run(DRAW + [plug, left_in, "-o", to, "--recording", os.path.join(HERE, "pulled_plug.txt")], check=True)
            with open(to, "rb") as picture:
                data = picture.read()
            assert data.startswith(begins) and len(data) < 300_000
            assert kind != "svg" or b"16 of 80 values differ, 41 to 56" in data and b"rate 15" in data
        assert drawn("", os.path.join(folder, "none"))[0] == 2
        status, _, said = drawn("y\t1\t0\n" * 100, "-", "--recording", os.path.join(HERE, "pulled_plug.txt"))
        assert status == 2 and "100 outputs, and the recording gives 80" in said, said
    print("samples/draw.py: every case drawn, each picture below 300 kB")


if __name__ == "__main__":
    main()
