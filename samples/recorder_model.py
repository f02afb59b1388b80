"""The recorder's program in plain Python, written from docs/RECORDER.md and documents 01 and 02 alone: a model to hold the proved
program against. record(input) takes and gives bytes. Each output that is told 0 is worked out a second time, as the moving sum of
the turns since the recorder was opened, resumed or given another rate: a difference stops the model.
"""
import functools

WORD = 1 << 64
FACTOR = 6364136223846793005


def signed(n, bits=64):
    n %= 1 << bits
    return n - (1 << bits) if n >> (bits - 1) else n


class Refused(Exception):
    pass


@functools.lru_cache(None)
def weights(window, folds, count):
    """How often the folds-fold sum of the last `window` values counts each of the last `count` inputs: the newest first."""
    if folds == 0:
        return [1] + [0] * (count - 1)
    sums = [0]
    for w in weights(window, folds - 1, count):
        sums.append(sums[-1] + w)
    return [sums[i + 1] - sums[max(0, i + 1 - window)] for i in range(count)]


def moving_sum(turns, window, folds, at):
    """The folds-fold sum of the last `window` values, zeros before the start."""
    count = (at // 64 + 1) * 64
    return sum(w * x for w, x in zip(weights(min(window, count), folds, count), turns[at::-1]))


class Recorder:
    def __init__(self, order, delay, rate, countdown=0, inputs=0, hold=0, y=0, sums=None, combs=None, resumed=False):
        for bad, number in ((order > 8, 10), (not 1 <= delay <= 8, 11), (rate > 65535, 12), (countdown > 65535, 13)):
            if bad:
                raise Refused(number)
        self.order, self.delay, self.rate, self.countdown, self.inputs = order, delay, rate, countdown, inputs
        self.hold, self.y, self.plugged = hold, y, True
        self.sums, self.combs = sums or [0] * 8, combs or [0] * 64
        self.since(order * delay if resumed else 0)

    def since(self, unsettled):
        self.unsettled, self.turns = unsettled, []

    def push(self):
        self.plugged = True
        self.since(self.order * self.delay)

    def set_rate(self, rate):
        if rate > 65535:
            raise Refused(12)
        self.rate = rate
        self.since(self.order * self.delay)

    def word(self, w):
        """A word of 32 bits: None, or value, told and number of an output."""
        if not self.plugged:
            raise Refused(87)
        if self.inputs == WORD - 1:
            raise Refused(16)
        # the nearest position to the last one whose low 32 bits are the word
        self.y = signed(self.y + signed(w - self.y, 32))
        self.turns.append(self.y)
        self.inputs += 1
        x = self.y
        for i in range(self.order):
            x = self.sums[i] = signed(self.sums[i] + x)
        if self.countdown:
            self.countdown -= 1
            return None
        self.countdown = self.rate
        for j in range(self.order):
            first, last = 8 * j, 8 * j + self.delay
            oldest = self.combs[first]
            self.combs[first:last] = self.combs[first + 1 : last] + [x]
            x = signed(x - oldest)
        self.hold = x
        told = self.unsettled
        self.unsettled = max(0, told - 1)
        if told == 0:
            right = moving_sum(self.turns, (self.rate + 1) * self.delay, self.order, len(self.turns) - 1)
            assert x == signed(right), (x, right)
        return x, told, self.inputs

    def line(self):
        words = [self.order, self.delay, self.rate, self.countdown, self.inputs, self.hold, self.y] + self.sums + self.combs
        return b"c" + b"".join(b"%016x" % (w % WORD) for w in words + [check(words)]) + b"\n"


def check(words):
    c = 1
    for w in words:
        c = (c * FACTOR + w) % WORD
    return c


def digits(field):
    if any(b not in b"0123456789abcdef" for b in field):
        raise Refused(75)
    return int(field, 16)


def resumed(line):
    if line[-1:] != b"\n":
        raise Refused(72)
    words = [digits(line[i : i + 16]) for i in range(1, 1281, 16)]
    if words.pop() != check(words):
        raise Refused(86)
    order, delay, rate, countdown, inputs, hold, y = words[:7]
    if rate >> 32 or countdown >> 32:
        raise Refused(76)
    cells = [signed(w) for w in words[7:]]
    return Recorder(order, delay, rate, countdown, inputs, signed(hold), signed(y), cells[:8], cells[8:], True)


def record(data):
    r, inputs, at, out = None, 0, 0, []
    try:
        while at < len(data):
            inputs = r.inputs if r else 0
            size = 1282 if data[at] == ord("c") else 18
            line = data[at : at + size]
            if len(line) < size:
                raise Refused(77)
            at += size
            if size == 1282:
                r = resumed(line)
                continue
            if line[-1:] != b"\n":
                raise Refused(72)
            kind = line[:1]
            number, argument = divmod(digits(line[1:17]), 1 << 32)
            if kind not in (b"w", b"o", b"r", b"p", b"q", b"s"):
                raise Refused(73)
            if kind in (b"p", b"q", b"s") and argument:
                raise Refused(76)
            if (r is None) != (kind == b"o"):
                raise Refused(71)
            if number != (inputs + (kind == b"w")) % (1 << 32):
                raise Refused(85)
            if kind == b"o":
                r = Recorder(argument >> 24, argument >> 16 & 255, argument & 65535)
            elif kind == b"w":
                y = r.word(argument)
                if y:
                    out.append(b"y\t%d\t%d\t%d\n" % y)
            elif kind == b"r":
                r.set_rate(argument)
            elif kind == b"p":
                r.plugged = False
            elif kind == b"q":
                r.push()
            else:
                out.append(r.line())
        out.append(b"end\t%d\n" % (r.inputs if r else 0))
    except Refused as e:
        out.append(b"bad\t%d\t%d\n" % (inputs, e.args[0]))
    return b"".join(out)
