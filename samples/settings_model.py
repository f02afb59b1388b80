"""A settings store of either form in plain Python, written from document 02, A7, A12 and A13, and not from the program. Run, it prints the stored cases
of crates/settings_cases with their answers:

    python3 samples/settings_model.py CASES     (a file of names and texts, each ended by #)
"""
import re
import sys

NUMBER = re.compile(rb"0|-?[1-9][0-9]*")
NAME = re.compile(rb"[a-z]{1,16}")
CURRENT = bytes.maketrans(b"ef", b"bc")


def number(field, least, most):
    """The number that a field spells, if it lies in the range."""
    if not NUMBER.fullmatch(field):
        return None
    v = int(field)
    return v if least <= v <= most else None


def record(line, form=1):
    """A line's record in a form, or None where its form is wrong."""
    fields = line.split(b"\t")
    if len(line) > 160 or len(fields) < 2 or not NAME.fullmatch(fields[1]):
        return None
    if fields[0] == b"cic":
        numbers = [number(f, 0, 2**32 - 1) for f in fields[2:]]
        return ("cic", fields[1], *numbers) if len(numbers) == 3 and None not in numbers else None
    if fields[0] == b"wdf" and len(fields) >= 4:
        sections = number(fields[2], 0, 2**32 - 1)
        coefficients = [number(f, -(2**31), 2**31 - 1) for f in fields[4:]]
        if sections is None or None in coefficients or len(coefficients) != sections:
            return None
        nibbles = b"" if fields[3] == b"-" and sections == 0 else fields[3]
        if sections == 0 and fields[3] != b"-" or not re.fullmatch(rb"[0-9a-f]{%d}" % sections, nibbles):
            return None
        return ("wdf", fields[1], nibbles, coefficients)
    if form == 2 and fields[0] == b"dither" and len(fields) == 11:
        f = number(fields[2], 0, 2**32 - 1)
        others = [number(x, -(2**31), 2**31 - 1) for x in fields[3:]]
        return None if f is None or None in others else ("dither", fields[1], f, others)
    return None


def parameters(r, form=1):
    """The first parameter number that refuses a record, or 0. A text has no nibble beyond the last section, so no 51."""
    if r[0] == "wdf":
        return 50 if len(r[3]) > 8 else 53 if form == 2 and re.search(rb"[ef]", r[2]) else 0
    if r[0] == "dither":
        return 40 if not 1 <= r[2] <= 31 else 41 if r[3][6] > r[3][7] else 0
    order, delay, n = r[2:]
    return 10 if order > 8 else 11 if not 1 <= delay <= 8 else 12 if not form - 1 <= n <= 65534 + form else 0


def form_of(text):
    """The form that the first line opens; 1 where it opens none."""
    return 2 if text.startswith(b"set\t2\n") else 1


def read(text, form=1):
    """The records, or the first bad line from 1 and its number."""
    lines = text.split(b"\n")
    if len(lines) < 2 or lines[0] != b"set\t%d" % form:
        return 1, 80
    records = []
    for at, line in enumerate(lines[1:], 2):
        if at == len(lines) and not line:
            break
        r = record(line, form) if at < len(lines) else None
        if r is None:
            return at, 81
        if len(records) == 64:
            return at, 83
        if records and r[1] <= records[-1][1]:
            return at, 82
        if parameters(r, form):
            return at, parameters(r, form)
        records.append(r)
    return records


def checked(text, form=None):
    """The answer of a program that knows one form, or both."""
    form = form or form_of(text)
    r = read(text, form)
    return b"ok\t%d\t%d\n" % (form, len(r)) if isinstance(r, list) else b"bad\t%d\t%d\n" % r


def copied(text):
    return text if isinstance(read(text, form_of(text)), list) else checked(text)


def moved(text, form, other):
    """A store of one form as one of the other, line by line; or the refusal."""
    r = read(text, form)
    if not isinstance(r, list):
        return b"bad\t%d\t%d\n" % r
    if other == 1 and any(x[0] == "dither" for x in r):
        return b"bad\t0\t84\n"
    lines = [b"set\t%d" % other]
    for line in text.split(b"\n")[1:-1]:
        fields = line.split(b"\t")
        if fields[0] == b"cic":
            fields[4] = b"%d" % (int(fields[4]) + other - form)
        if fields[0] == b"wdf" and other == 2:
            fields[3] = fields[3].translate(CURRENT)
        lines.append(b"\t".join(fields))
    return b"\n".join(lines) + b"\n"


def forth(text):
    return moved(text, 1, 2)


def back(text):
    return moved(text, 2, 1)


def holds_retired(text):
    """Whether a readable store of form 1 has a nibble e or f."""
    return any(r[0] == "wdf" and re.search(rb"[ef]", r[2]) for r in read(text))


def case(name, text):
    """The answers to a stored case: of the reader of form 1; where the text opens form 2, of that form's reader and of the move back."""
    lines = name + b"\t" + checked(text, 1)
    if isinstance(read(text), list) and back(forth(text)) != text:
        lines += name + b"\tother bytes forth and back\n"
    if form_of(text) == 2:
        there = back(text)
        lines += name + b"\t" + checked(text, 2)
        lines += name + b", back\t" + (there if there.startswith(b"bad") else b"written\t%d\n" % len(there))
    return lines


if __name__ == "__main__":
    parts = open(sys.argv[1], "rb").read().split(b"#")[:-1]
    for name, text in zip(parts[::2], parts[1::2]):
        sys.stdout.buffer.write(case(name, text))
