"""The WAV programs' rules in plain Python, written from document 02 (A9) and docs/DECISIONS.md, not from the programs.

A file that is accepted is also read by Python's own wave module, and the two must agree.
"""
import io
import struct
import wave

MOST_SIZE = 2147483000


def header(rate, size):
    fmt = struct.pack("<IHHIIHH", 16, 1, 1, rate, 2 * rate, 2, 16)
    return b"RIFF" + struct.pack("<I", 36 + size) + b"WAVE" + b"fmt " + fmt + b"data" + struct.pack("<I", size)


def told(head):
    """Rate and size of a header, or None."""
    if len(head) < 44:
        return None
    rate, size = struct.unpack_from("<I", head, 24)[0], struct.unpack_from("<I", head, 40)[0]
    if rate > 2**31 - 1 or size > MOST_SIZE or size % 2 or head[:44] != header(rate, size):
        return None
    return rate, size


def samples(data):
    return [struct.unpack_from("<h", data, i)[0] for i in range(0, len(data) - 1, 2)]


def agreed(file, values):
    """Python's wave module reads the same, where it takes the rate."""
    if struct.unpack_from("<I", file, 24)[0] > 0:
        with wave.open(io.BytesIO(file)) as w:
            assert (w.getnchannels(), w.getsampwidth(), w.getnframes()) == (1, 2, len(values))
            assert samples(w.readframes(len(values))) == values


def given(data, piped):
    """The accepted header, the bytes of data that were there, and whether all is right."""
    head = told(data)
    if head is None or (not piped and len(data) != 44 + head[1]):
        return None
    part = data[44:44 + head[1]]
    return head, part[:len(part) // 2 * 2], len(data) == 44 + head[1]


def wav_in(data, piped):
    g = given(data, piped)
    if g is None:
        return b"bad\t90\n"
    _, part, whole = g
    if whole:
        agreed(data, samples(part))
    return b"".join(b"x\t%d\n" % v for v in samples(part)) + (b"" if whole else b"bad\t90\n")


def wav_copy(data, piped):
    g = given(data, piped)
    if g is None:
        return b"bad\t90\n"
    (rate, size), part, whole = g
    return data if whole else header(rate, size) + part + b"bad\t90\n"


def number(field, low, high):
    try:
        v = int(field)
    except ValueError:
        return None
    return v if str(v).encode() == field and low <= v <= high else None


def setting(line):
    f = line.split(b"\t")
    if len(f) != 4 or f[0] != b"wav" or f[3] not in (b"settled", b"all"):
        return None
    rate, shift = number(f[1], 0, 2**31 - 1), number(f[2], 0, 63)
    return None if rate is None or shift is None else (rate, shift, f[3] == b"all")


def wav_out(text):
    lines = text.split(b"\n")
    rest, lines = lines[-1], lines[:-1]
    if not lines:
        return b"bad\t90\t1\n"
    how = setting(lines[0])
    if how is None:
        return b"bad\t90\t1\n"
    rate, shift, every = how
    values, outputs, ended = [], 0, False
    for at, line in enumerate(lines[1:], 2):
        f = line.split(b"\t")
        wrong = b"bad\t90\t%d\n" % at
        if ended:
            return wrong
        if f[0] == b"y" and len(f) == 3:
            v, t = number(f[1], -2**63, 2**63 - 1), number(f[2], 0, 2**63)
            if v is None or t is None:
                return wrong
            outputs += 1
            if every or t == 0:
                if not -32768 <= v >> shift <= 32767:
                    return b"bad\t91\t%d\n" % at
                values.append(v >> shift)
        elif f[0] == b"end" and len(f) == 2:
            if number(f[1], 0, 2**63) != outputs:
                return wrong
            ended = True
        elif f[0] == b"bad" and len(f) >= 3:
            line_, why = number(f[1], 0, 2**63), number(f[2], 1, 2**63)
            if line_ is None or why is None:
                return wrong
            return b"bad\t%d\t%d\n" % (why, line_)
        else:
            return wrong
    if rest or not ended:
        return b"bad\t90\t%d\n" % (len(lines) + 1)
    file = header(rate, 2 * len(values)) + b"".join(struct.pack("<h", v) for v in values)
    agreed(file, values)
    return file
