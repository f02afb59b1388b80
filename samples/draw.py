#!/usr/bin/env python3
"""Draws what a replay answered, or two of them in one picture.

    samples/replay samples/pulled_plug.txt | samples/draw.py >plug.svg
    samples/draw.py ANSWER -o plug.png --recording samples/pulled_plug.txt --mark '641-809=plug out'
    samples/draw.py ANSWER OTHER --window

Outputs are drawn in turn; with --recording against the number of the `x` record that each stands for, with the records between them. The
scale is that of the settled outputs. Unsettled ones stand on a band at least three pixels wide. From some thousand outputs on the picture
is an envelope. Where the replay was refused or cut, the picture says so.

Wants matplotlib (Debian: apt-get install python3-matplotlib). Exit status 2 where something isn't to be drawn.
"""
import argparse
import os
import re
import sys

from front import refusals

DEBIANS = "/usr/bin/python3"   # which has Debian's matplotlib, where another python3 stands before it
try:
    import matplotlib
except ImportError:
    if __name__ == "__main__" and os.path.realpath(sys.executable) != os.path.realpath(DEBIANS) and os.access(DEBIANS, os.X_OK):
        os.execv(DEBIANS, [DEBIANS] + sys.argv)
    print("samples/draw.py: wants matplotlib for %s: apt-get install python3-matplotlib, or pip install matplotlib" % sys.executable, file=sys.stderr)
    sys.exit(2)
import numpy

FEW, MANY, COLUMNS = 150, 2500, 900
SETTLED, UNSETTLED, OTHER, RUN_IN, MARK = "#1f4e79", "#e07b00", "#2e8b57", "#808080", "#c0392b"
BAND = 3.5   # points: never less than three pixels
SAYS_SETTLED = "told 0, settled: nothing from before the last cic, rate or clear record is in it; it can't see the plug"
SAYS_UNSETTLED = "told 1 or more, unsettled: may have samples from before the last rate record in it; discard"
SAYS_RUN_IN = "told 0, but zeros from before the start are in it"


class Failed(Exception):
    pass


class Answer:
    """A replay's outputs, what each tells, and how it ended."""

    def __init__(self, name, data):
        *lines, cut = data.split(b"\n")
        values, told = [], []
        self.name, self.ended = name, "cut short: neither `end` nor `bad`" + (", and half a line" if cut else "")
        for at, line in enumerate(lines, 1):
            fields = line.split(b"\t")
            try:
                if fields[0] == b"y" and len(fields) == 3 and self.ended.startswith("cut"):
                    values.append(int(fields[1]))
                    told.append(int(fields[2]))
                elif fields[0] == b"end" and len(fields) == 2 and at == len(lines) and not cut and int(fields[1]) == len(values):
                    self.ended = counted(len(values), "output")
                elif fields[0] == b"bad" and len(fields) in (3, 4) and at == len(lines) and not cut:
                    self.ended = refused(*[int(f) for f in fields[1:]])
                else:
                    raise ValueError
            except ValueError:
                raise Failed("%s, line %d is no answer of the replay's: %r" % (name, at, line[:60]))
        try:
            self.values, self.told = numpy.array(values, dtype=numpy.int64), numpy.array(told, dtype=numpy.int64)
        except OverflowError:
            raise Failed("%s has a value beyond 64 bits" % name)
        self.places = numpy.arange(1, len(values) + 1, dtype=float)
        self.run_in = numpy.zeros(len(values), dtype=bool)

    def settled(self):
        return self.values[self.told == 0]


def counted(n, what):
    return "%d %s%s" % (n, what, "" if n == 1 else "s")


def refused(line, number, place=0):
    when = refusals().get(number, ("a number that docs/REFUSALS.md lacks", ""))[0]
    return "refused at line %d%s: %d, %s" % (line, ", field %d" % place if place else "", number, when)


class Recording:
    """Which `x` record each output stands for, and the records between them."""

    def __init__(self, path):
        with open(path, "rb") as file:
            data = file.read()
        self.records, self.numbers, self.early, self.gains = [], [], [], set()
        at, taken, rate, countdown, window, start = 0, 0, 0, 0, 0, 0
        for match in list(re.finditer(rb"^(?!x\t)[^\n]*\n?", data, flags=re.M)) + [None]:
            until = match.start() if match else len(data)
            inputs = data.count(b"\n", at, until)
            given = numpy.arange(taken + countdown + 1, taken + inputs + 1, rate + 1)
            self.numbers.append(given)
            self.early.append(given - start < window)
            countdown = (countdown - inputs) % (rate + 1) if inputs > countdown else countdown - inputs
            taken += inputs
            if not match or not match.group():
                break
            at = match.end()
            fields = match.group().split()
            try:
                name, numbers = fields[0].decode(), [int(f) for f in fields[1:]]
                if name in ("cic", "cic64"):
                    order, delay, rate = numbers
                    window, start = order * ((rate + 1) * delay - 1) + 1, taken
                elif name == "rate":
                    (rate,), window = numbers, 0
                elif name == "clear" and not numbers:
                    countdown, window, start = 0, order * ((rate + 1) * delay - 1) + 1, taken
                else:
                    break
            except (ValueError, IndexError, NameError):
                break   # from here on the replay was refused
            self.gains.add(((rate + 1) * delay) ** order)
            self.records.append((taken + 0.5, match.group().decode().strip().replace("\t", " ")))

    def places(self, answer):
        """Puts the outputs in their places."""
        numbers, early = numpy.concatenate(self.numbers), numpy.concatenate(self.early)
        if len(numbers) < len(answer.values):
            raise Failed("%s has %d outputs, and the recording gives %d" % (answer.name, len(answer.values), len(numbers)))
        answer.places = numbers[:len(answer.values)].astype(float)
        answer.run_in = early[:len(answer.values)] & (answer.told == 0)


def spans(places, which, half, least):
    """The stretches of outputs, each at least so wide, as (from, width); those that touch are one."""
    found = []
    for a, b in runs(which):
        left, right = places[a] - half[a], places[b - 1] + half[b - 1]
        more = max(0.0, least - (right - left)) / 2
        if found and left - more <= found[-1][1]:
            found[-1][1] = max(found[-1][1], right + more)
        else:
            found.append([left - more, right + more])
    return [(a, b - a) for a, b in found]


def runs(which):
    """[(a, b)]: the stretches a..b of trues."""
    edges = numpy.flatnonzero(numpy.diff(numpy.concatenate(([0], which.astype(numpy.int8), [0]))))
    return list(zip(edges[::2], edges[1::2]))


def halves(places):
    """Half the distance to the next output, for each."""
    if len(places) < 2:
        return numpy.full(len(places), 0.5)
    gaps = numpy.diff(places)
    return numpy.concatenate((gaps, gaps[-1:])) / 2


def trace(axes, places, values, which, colour, label, style="-"):
    """Some of the outputs: points where they are few, a line, or an envelope where they are many."""
    if not which.any():
        return
    if len(places) <= MANY:
        marker = "o" if len(places) <= FEW else None
        line = numpy.where(which, values, numpy.nan)
        alone = ~numpy.isnan(line) & numpy.isnan(numpy.concatenate(([numpy.nan], line[:-1]))) & numpy.isnan(numpy.concatenate((line[1:], [numpy.nan])))
        axes.plot(places, line, style, marker=marker, markersize=3, color=colour, linewidth=1.1, label=label)
        if not marker and alone.any():
            axes.plot(places[alone], line[alone], ".", markersize=2, color=colour)
        return
    edges = numpy.linspace(places[0], places[-1], COLUMNS + 1)
    starts = numpy.unique(numpy.searchsorted(places, edges[:-1]))
    low = numpy.minimum.reduceat(numpy.where(which, values, numpy.inf), starts)
    high = numpy.maximum.reduceat(numpy.where(which, values, -numpy.inf), starts)
    some = numpy.isfinite(low)
    low, high = numpy.where(some, low, numpy.nan), numpy.where(some, high, numpy.nan)
    axes.fill_between(places[starts], low, high, step="post", facecolor=colour, edgecolor=colour, linewidth=0.8, alpha=0.85, label=label)


def limits(answers, base):
    """The scale: that of the settled outputs, or of all where none is."""
    values = numpy.concatenate([a.settled() for a in answers])
    if not len(values):
        values = numpy.concatenate([a.values for a in answers])
    if not len(values):
        return -1.0, 1.0
    low, high = float(int(values.min()) - base), float(int(values.max()) - base)
    edge = 0.08 * (high - low) or max(1.0, 0.1 * abs(high))
    return low - edge, high + edge


def offset(answers):
    """What is taken off the values: 0, but where doubles would lose their last digits."""
    values = numpy.concatenate([a.values for a in answers])
    low, high = (int(values.min()), int(values.max())) if len(values) else (0, 0)
    return low if max(abs(low), abs(high)) >= 1 << 52 and high - low < 1 << 52 else 0


def differing(one, other):
    size = min(len(one.values), len(other.values))
    which = numpy.flatnonzero(one.values[:size] != other.values[:size]) + 1
    more = "" if len(one.values) == len(other.values) else "; one has %d outputs more" % abs(len(one.values) - len(other.values))
    if not len(which):
        return "no value differs" + more
    whole = which[-1] - which[0] + 1 == len(which)
    return "%d of %d values differ, %s%s" % (len(which), size, "%d to %d" % (which[0], which[-1]) if whole else "the first %d, the last %d" % (which[0], which[-1]), more)


def draw(answers, recording, options):
    import matplotlib.pyplot as plot
    figure, axes = plot.subplots(figsize=(9.6, 4.9))
    figure.subplots_adjust(left=0.1, right=0.97, top=0.89, bottom=0.31)
    base = offset(answers)
    floats = [(a.values - base).astype(float) if base else a.values.astype(float) for a in answers]
    first = answers[0]
    ends = [p for a in answers for p in (a.places[:1].tolist() + a.places[-1:].tolist())] or [0, 1]
    wide = max(0.02 * (max(ends) - min(ends)), 1.0)
    axes.set_xlim(min(ends) - wide, max(ends) + wide)
    axes.set_ylim(*limits(answers, base))
    low, high = axes.get_ylim()
    point = (axes.get_xlim()[1] - axes.get_xlim()[0]) / (axes.get_position().width * figure.get_figwidth() * 72)
    axes.axhline(0, color="#444444", linewidth=0.8)
    bands(axes, first, point)
    for a, b, words in options.mark:
        axes.axvspan(a - 0.5, max(b + 0.5, a - 0.5 + BAND * point), color=MARK, alpha=0.13, linewidth=0)
        axes.text((a + b) / 2, 0.97, words, transform=axes.get_xaxis_transform(), ha="center", va="top", color=MARK, fontsize=9)
    if len(answers) == 2:
        other = answers[1]
        trace(axes, other.places, floats[1], numpy.ones(len(other.values), dtype=bool), OTHER, other.name, "--")
    of = first.name + ", " if len(answers) == 2 else ""
    trace(axes, first.places, floats[0], first.told == 0, SETTLED, of + SAYS_SETTLED)
    trace(axes, first.places, floats[0], first.told > 0, UNSETTLED, of + SAYS_UNSETTLED)
    wild(axes, first, floats[0], low, high, point)
    for at, words in (recording.records if recording and len(recording.records) <= 12 else []):
        axes.axvline(at, color="#444444", linewidth=0.8, linestyle=":")
        axes.text(at, 1.005, words, transform=axes.get_xaxis_transform(), ha="center", va="bottom", fontsize=7.5)
    labels(figure, axes, answers, recording, base, options)
    return figure


def bands(axes, answer, point):
    """The countdowns, fading, with their counts where there is room; and the outputs that have zeros from before the start."""
    if not len(answer.values):
        return
    half = halves(answer.places)
    across = dict(transform=axes.get_xaxis_transform(), linewidth=0, zorder=3 if len(answer.values) > MANY else 1)   # over an envelope
    axes.broken_barh(spans(answer.places, answer.run_in, half, BAND * point), (0, 1), facecolor=RUN_IN, alpha=0.2,
                     label=SAYS_RUN_IN if answer.run_in.any() else None, **across)
    for a, b in runs(answer.told > 0) if (answer.told > 0).sum() <= FEW else []:
        if 2 * half[a:b].min() < BAND * point:
            axes.broken_barh(spans(answer.places, some(answer, a, b), half, BAND * point), (0, 1), facecolor=UNSETTLED, alpha=0.75 if len(answer.values) > MANY else 0.35, **across)
            continue
        began = 0
        for i in range(a, b):
            began = max(began, answer.told[i]) if i > a and answer.told[i] < answer.told[i - 1] else answer.told[i]
            axes.broken_barh([(answer.places[i] - half[i], 2 * half[i])], (0, 1), facecolor=UNSETTLED, alpha=0.08 + 0.4 * answer.told[i] / began, **across)
            if 2 * half[i] > 6 * len(str(answer.told[i])) * point:
                axes.text(answer.places[i], 0.02, str(answer.told[i]), ha="center", fontsize=8, transform=axes.get_xaxis_transform())
    if (answer.told > 0).sum() > FEW:
        axes.broken_barh(spans(answer.places, answer.told > 0, half, BAND * point), (0, 1), facecolor=UNSETTLED, alpha=0.75 if len(answer.values) > MANY else 0.35, **across)


def some(answer, a, b):
    which = numpy.zeros(len(answer.values), dtype=bool)
    which[a:b] = True
    return which


def wild(axes, answer, values, low, high, point):
    """Outputs off the scale, at its edge, one where several would cover each other."""
    for which, marker, at in [(values > high, "^", high), (values < low, "v", low)]:
        if which.any():
            at_all = numpy.flatnonzero(which)
            shown = at_all[numpy.unique((answer.places[at_all] / (6 * point)).astype(int), return_index=True)[1]]
            axes.plot(answer.places[shown], [at] * len(shown), marker, color=UNSETTLED, markersize=7, clip_on=False, zorder=5)


def labels(figure, axes, answers, recording, base, options):
    gain = "%d" % min(recording.gains) if recording and len(recording.gains) == 1 else "gain"
    axes.locator_params(axis="x", integer=True)
    axes.xaxis.set_major_formatter(lambda at, _: "{:,}".format(round(at)))
    figure.canvas.draw()
    power = axes.yaxis.get_offset_text()
    power.set_visible(False)
    words = "output, %s × %s%s" % (options.unit, gain, " less %d" % base if base else "")
    axes.set_ylabel(words + ("\nin units of %s" % power.get_text() if power.get_text() else ""), fontsize=9)
    axes.set_xlabel("number of the input (x record)" if recording else "number of the output", fontsize=9)
    axes.tick_params(labelsize=8)
    axes.grid(True, alpha=0.25)
    off = sum(int(((a.told > 0) & ((a.values > s[1]) | (a.values < s[0]))).sum()) for a, s in [(answers[0], [v + base for v in axes.get_ylim()])])
    words = [a.ended if len(answers) == 1 else "%s: %s" % (a.name, a.ended) for a in answers]
    words += ["%d unsettled off the scale, at its edge" % off] * bool(off) + ([differing(*answers)] if len(answers) == 2 else [])
    if not len(answers[0].values):
        axes.text(0.5, 0.6, "no output", transform=axes.transAxes, ha="center", color="#666666")
    figure.suptitle(options.title or " and ".join(a.name for a in answers), x=0.1, y=0.985, ha="left", fontsize=11)
    figure.text(0.97, 0.015, "; ".join(words), ha="right", fontsize=9, color="black" if all(re.match(r"\d", a.ended) for a in answers) else MARK)
    if axes.get_legend_handles_labels()[0]:
        figure.legend(*axes.get_legend_handles_labels(), loc="lower left", bbox_to_anchor=(0.09, 0.05), fontsize=8, frameon=False)


def mark(words):
    match = re.fullmatch(r"(\d+)-(\d+)=(.*)", words)
    if not match:
        raise argparse.ArgumentTypeError("FROM-TO=WORDS")
    return int(match.group(1)), int(match.group(2)), match.group(3)


def asked(words):
    parser = argparse.ArgumentParser(prog="samples/draw.py", description=__doc__, formatter_class=argparse.RawDescriptionHelpFormatter)
    parser.add_argument("answers", nargs="*", metavar="ANSWER", help="one or two files of answers; none: standard input")
    parser.add_argument("-o", metavar="PICTURE", help="an .svg, .png or .pdf file; else SVG to standard output")
    parser.add_argument("--window", action="store_true", help="show it in a window")
    parser.add_argument("--recording", metavar="FILE", help="the recording that was replayed")
    parser.add_argument("--unit", default="samples", help="of a sample")
    parser.add_argument("--title")
    parser.add_argument("--mark", action="append", default=[], type=mark, metavar="FROM-TO=WORDS", help="shades a stretch")
    options = parser.parse_args(words)
    if len(options.answers) > 2:
        parser.error("two answers at most")
    if not options.o and not options.window and sys.stdout.isatty():
        parser.error("standard output is a terminal: -o PICTURE, --window, or >plug.svg")
    return options


def loaded(path):
    if path == "-":
        return Answer("replay", sys.stdin.buffer.read())
    with open(path, "rb") as file:
        return Answer(os.path.basename(path), file.read())


def main(words):
    options = asked(words)
    if not options.window:
        matplotlib.use("Agg")
    matplotlib.rcParams.update({"svg.fonttype": "none", "svg.hashsalt": "mittenload", "path.simplify": True})
    answers = [loaded(path) for path in options.answers or ["-"]]
    recording = Recording(options.recording) if options.recording else None
    for answer in answers if recording else []:
        recording.places(answer)
    figure = draw(answers, recording, options)
    if options.window:
        import matplotlib.pyplot as plot
        if matplotlib.get_backend().lower() == "agg":
            raise Failed("no window can be opened here (apt-get install python3-tk, and a display): -o PICTURE")
        plot.show()
    kind = os.path.splitext(options.o)[1][1:] if options.o else "svg"
    if options.o or not options.window:
        figure.savefig(options.o or sys.stdout.buffer, format=kind, dpi=110, metadata={"Date": None} if kind == "svg" else None)
    return 0


if __name__ == "__main__":
    try:
        sys.exit(main(sys.argv[1:]))
    except (Failed, OSError, ValueError) as error:
        print("samples/draw.py: %s" % error, file=sys.stderr)
        sys.exit(2)
