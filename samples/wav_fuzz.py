#!/usr/bin/env python3
"""Holds the WAV programs against wav_model.py: every header byte damaged, lengths off by one, drawn recordings and drawn answers
of the replay, good and damaged, from files and from pipes cut anywhere.

    python3 samples/wav_fuzz.py [COUNT] [FOLDER]     (3000 inputs of each kind; the folder of the programs, target/bin)

A pipe in packet mode gives each write to one read, so the cuts are where they are drawn; what a read has no room for is lost there, so
one cut is always behind the header. A live pipe, outputs that can't be sought, and reads and writes that fail come first.
"""
import os
import random
import struct
import subprocess
import sys
import tempfile

import wav_model as model

HERE = os.path.dirname(os.path.abspath(__file__))
PIECES = [1, 2, 3, 7, 44, 45, 46, 500, 4000]


def cuts(rng, data):
    parts, at = [], 0
    while at < len(data):
        size = rng.choice(PIECES)
        parts.append(data[at:at + size])
        at += size
    return parts


def fed(program, parts, **more):
    """The program at a pipe that gives these parts, one to a read."""
    into, out_of = os.pipe2(os.O_DIRECT | os.O_CLOEXEC)
    run = subprocess.Popen([program], stdin=into, **more)
    os.close(into)
    try:
        for part in parts:
            os.write(out_of, part)
    except BrokenPipeError:
        pass
    os.close(out_of)
    return run


def from_file(program, data):
    with tempfile.TemporaryFile() as given:
        given.write(data)
        given.seek(0)
        return subprocess.run([program], stdin=given, stdout=subprocess.PIPE).stdout


def from_pipe(program, parts):
    return fed(program, parts, stdout=subprocess.PIPE).communicate()[0]


def into_file(program, parts):
    """What stands in the file when the program is done."""
    with tempfile.TemporaryFile() as gave:
        fed(program, parts, stdout=gave).wait()
        gave.seek(0)
        return gave.read()


def recording(rng):
    values = [rng.choice([0, 1, -1, 32767, -32768, rng.randint(-32768, 32767)]) for _ in range(rng.choice([0, 1, 2, 5, 100, 3000]))]
    rate = rng.choice([0, 1, 8000, 44100, 48000, 2**31 - 1, rng.randint(0, 2**31 - 1)])
    return model.header(rate, 2 * len(values)) + struct.pack("<%dh" % len(values), *values)


def damaged(rng, data):
    at = rng.randint(0, len(data))
    byte = bytes([rng.randint(0, 255)])
    return rng.choice([data[:at] + byte + data[at + 1:], data[:at] + byte + data[at:], data[:at] + data[at + 1:], data[:at], data + byte])


def read_one(folder, data, rng):
    """One file, as file and as pipe, by wav_in and wav_copy: what differs."""
    for name, want in [("wav_in", model.wav_in), ("wav_copy", model.wav_copy)]:
        program = os.path.join(folder, name)
        parts = cuts(rng, data[:44]) + cuts(rng, data[44:])
        for got, wanted in [(from_file(program, data), want(data, False)), (from_pipe(program, parts), want(data, True))]:
            if got != wanted:
                return "%s differs on %r\nwant %r\ngot  %r" % (name, data[:200], wanted[-200:], got[-200:])
    return ""


def headers(folder, rng):
    """Each byte of a header changed, lengths off by one and two, and shorter than a header."""
    good = model.header(48000, 8) + b"\1\0\2\0\3\0\4\0"
    tries = [good, good[:-1], good[:-2], good + b"\0", good + b"\0\0"] + [good[:n] for n in range(46)]
    for at in range(44):
        for change in [1, 2, 128, 255]:
            tries.append(good[:at] + bytes([good[at] ^ change]) + good[at + 1:])
    for size in [1, 2, 7, 9, 2147483000, 2147483002, 2147483646, 2**32 - 36, 2**32 - 2]:
        tries.append(good[:4] + struct.pack("<I", (36 + size) % 2**32) + good[8:40] + struct.pack("<I", size) + good[44:])
    for rate in [2**31 - 1, 2**31, 2**32 - 1]:
        tries.append(good[:24] + struct.pack("<II", rate, 2 * rate % 2**32) + good[32:])
    for data in tries:
        differ = read_one(folder, data, rng)
        if differ:
            return differ, len(tries)
    return "", len(tries)


def answers(rng):
    """What a replay might answer, behind a first line."""
    wild = rng.random() < 0.2
    shift = rng.choice([0, 0, 1, 8, 16, 18, 48, 63] + [rng.randint(0, 70)] * wild)
    rate = rng.choice([0, 1, 48000, 2**31 - 1] + [2**31, rng.randint(0, 2**33)] * wild)
    lines = ["wav\t%d\t%d\t%s" % (rate, shift, rng.choice(["settled", "all"] + ["none", ""] * wild))]
    count = rng.choice([0, 1, 3, 20, 500])
    reach = rng.choice([15, 15, 15, 15, 15] + [16, 31, 63] * wild)
    for _ in range(count):
        value = rng.randint(-(2**reach), 2**reach - 1) << min(shift, 63 - reach)
        lines.append("y\t%d\t%d" % (value, rng.choice([0, 0, 0, 1, 2, 64])))
    kind = rng.random()
    if kind < 0.8:
        lines.append("end\t%d" % (count + (rng.random() < 0.05)))
    elif kind < 0.95:
        lines.append(rng.choice(["bad\t%d\t%d", "bad\t%d\t%d\t0", "bad\t%d", "bad\t0\t0"]).replace("%d", str(rng.randint(0, 99))))
    data = "".join(l + "\n" for l in lines).encode()
    for _ in range(rng.choice([0, 0, 0, 0, 1, 2])):
        data = damaged(rng, data)
    return data


def live(folder):
    """What a read brought is answered before more is asked for, also behind an odd byte."""
    run = subprocess.Popen([os.path.join(folder, "wav_in")], stdin=subprocess.PIPE, stdout=subprocess.PIPE, bufsize=0)
    run.stdin.write(model.header(8000, 8) + b"\5\0\xff")
    assert run.stdout.readline() == b"x\t5\n"
    run.stdin.write(b"\xff")
    assert run.stdout.readline() == b"x\t-1\n"
    run.stdin.write(b"\0\0")
    assert run.stdout.readline() == b"x\t0\n"
    run.stdin.close()
    assert run.stdout.read() == b"bad\t90\n" and run.wait() == 0
    run.stdout.close()


def outputs(folder):
    """An output that can't be sought, isn't empty or only appends gets no header."""
    program, good = os.path.join(folder, "wav_out"), b"wav\t8000\t0\tall\ny\t1\t0\nend\t1\n"
    assert subprocess.run([program], input=good, stdout=subprocess.PIPE).stdout == b"bad\t90\t0\n"
    with tempfile.NamedTemporaryFile() as kept:
        for old, want in [(b"", b"bad\t90\t3\n"), (b"old", b"oldbad\t90\t0\n")]:
            with open(kept.name, "wb") as out:
                out.write(old)
            with open(kept.name, "ab") as out:
                subprocess.run([program], input=good, stdout=out)
            with open(kept.name, "rb") as left:
                assert left.read() == want, old
    with tempfile.TemporaryFile() as gave:
        run = subprocess.Popen([program], stdin=subprocess.PIPE, stdout=gave)
        run.stdin.write(b"wav\t8000\t0\tall\ny\t1\t0\n")
        run.stdin.flush()
        run.kill()
        run.wait()
        run.stdin.close()
        gave.seek(0)
        assert gave.read()[:44] in (b"", bytes(44))


def failing(folder):
    """A read or a write that fails stops the program with nothing further written."""
    data = model.header(8000, 40000) + bytes(40000)
    for name in ["wav_in", "wav_copy", "wav_out"]:
        program = os.path.join(folder, name)
        with open("/dev/full", "wb") as full:
            assert subprocess.run([program], input=data, stdout=full, stderr=subprocess.DEVNULL, timeout=60).returncode == 1
    into, out_of = os.pipe2(os.O_NONBLOCK)
    os.write(out_of, model.header(8000, 8) + b"\5\0")
    run = subprocess.Popen([os.path.join(folder, "wav_in")], stdin=into, stdout=subprocess.PIPE)
    assert run.communicate(timeout=60)[0] == b"x\t5\n"
    os.close(out_of)
    os.close(into)


def main(count, folder):
    rng = random.Random("2026")
    live(folder)
    outputs(folder)
    failing(folder)
    differ, tried = headers(folder, rng)
    kinds = {}
    for i in range(count):
        if differ:
            break
        data = recording(rng)
        for _ in range(rng.choice([0, 0, 1, 2])):
            data = damaged(rng, data)
        differ = read_one(folder, data, rng)
        text = answers(rng)
        want, got = model.wav_out(text), into_file(os.path.join(folder, "wav_out"), cuts(rng, text))
        kinds[want[:6]] = kinds.get(want[:6], 0) + 1
        if not differ and want != got:
            differ = "wav_out differs on %r\nwant %r\ngot  %r" % (text[:300], want[:80], got[:80])
    if differ:
        print(differ)
        return 1
    made = sum(n for k, n in kinds.items() if k.startswith(b"RIFF"))
    print("%d headers and %d recordings, each from a file and from a pipe, read and copied; " % (tried, count), end="")
    print("%d answers written, %d to a WAV file and %d refused: 0 differ" % (count, made, count - made))
    return 0


if __name__ == "__main__":
    words = sys.argv[1:]
    folder = words[1] if len(words) > 1 else os.path.join(os.path.dirname(HERE), "target", "bin")
    sys.exit(main(int(words[0]) if words else 3000, folder))
