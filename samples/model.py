"""The replay program in plain Python, written from documents 01 and 02 alone: a model to hold the proved program against.

replay(input) takes and gives bytes.
"""
WORD = {b"cic": 1 << 32, b"cic64": 1 << 64}


def signed(n, word):
    n %= word
    return n - word if n >= word // 2 else n


class Refused(Exception):
    """A number, and the bad field's place in the line, or 0."""

    def __init__(self, number, place=0):
        self.number, self.place = number, place


class Cic:
    """The decimator: N integrators, N delay lines of M cells, the oldest first; all sums modulo word."""

    def __init__(self, word, order, delay, rate):
        if order > 8:
            raise Refused(10)
        if not 1 <= delay <= 8:
            raise Refused(11)
        if rate > 65535:
            raise Refused(12)
        self.word, self.order, self.delay, self.rate = word, order, delay, rate
        self.clear()

    def clear(self):
        self.sums = [0] * self.order
        self.lines = [[0] * self.delay for _ in range(self.order)]
        self.countdown = self.unsettled = 0

    def set_rate(self, rate):
        if rate > 65535:
            raise Refused(12)
        self.rate = rate
        self.unsettled = self.order * self.delay

    def step(self, x):
        for i in range(self.order):
            x = self.sums[i] = signed(self.sums[i] + x, self.word)
        if self.countdown > 0:
            self.countdown -= 1
            return None
        self.countdown = self.rate
        for line in self.lines:
            line.append(x)
            x = signed(x - line.pop(0), self.word)
        told = self.unsettled
        self.unsettled = max(0, told - 1)
        return x, told


def number(field, place, low, high):
    """Decimal, no plus, no leading zero, no -0, else 75; within low..high, else 76."""
    digits = field[1:] if field[:1] == b"-" else field
    if not digits or any(b not in b"0123456789" for b in digits):
        raise Refused(75, place)
    if digits[:1] == b"0" and (len(digits) > 1 or field != digits):
        raise Refused(75, place)
    if not low <= int(field) <= high:
        raise Refused(76, place)
    return int(field)


def record(line, word):
    """A line's name and numbers: 73 unknown record, 74 wrong number of fields, then the fields from left to right. v lies within the word."""
    natural, sample = (0, (1 << 32) - 1), (-(word // 2), word // 2 - 1)
    kinds = {b"cic": [natural] * 3, b"cic64": [natural] * 3, b"rate": [natural], b"x": [sample], b"clear": []}
    name, *fields = line.split(b"\t")
    if name not in kinds:
        raise Refused(73)
    if len(fields) != len(kinds[name]):
        raise Refused(74)
    return name, [number(field, place, *kind) for place, (field, kind) in enumerate(zip(fields, kinds[name]), 2)]


def taken(cic, line, out):
    """What a line does: the filter after it. Its output goes to out."""
    if len(line) > 64:
        raise Refused(72)
    name, numbers = record(line, cic.word if cic else WORD[b"cic"])
    if (name in WORD) == (cic is not None):
        raise Refused(71)
    if name in WORD:
        return Cic(WORD[name], *numbers)
    if name == b"rate":
        cic.set_rate(*numbers)
    elif name == b"clear":
        cic.clear()
    else:
        given = cic.step(*numbers)
        if given is not None:
            out.append(b"y\t%d\t%d\n" % given)
    return cic


def replay(data):
    out = []
    cic = None
    *lines, last = data.split(b"\n")
    number_of = 0
    try:
        for number_of, line in enumerate(lines, 1):
            cic = taken(cic, line, out)
        if last:
            number_of += 1
            raise Refused(72 if len(last) > 64 else 77)
    except Refused as refusal:
        out.append(b"bad\t%d\t%d\t%d\n" % (number_of, refusal.number, refusal.place))
    else:
        out.append(b"end\t%d\n" % len(out))
    return b"".join(out)
